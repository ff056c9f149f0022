// Where the columns of a table are drawn: the root at the top, each column over the middle of its children.
import { members } from "./columns.mjs";

// For each column its place from the left, in leaves, and its depth; with how many leaves and levels there are.
export function treeLayout(table) {
  const left = [], depth = [];
  let leaves = 0;
  const place = (i, level) => {
    depth[i] = level;
    const children = members(table.children[i]);
    children.forEach(child => place(child, level + 1));
    left[i] = children.length ? (left[children[0]] + left[children[children.length - 1]]) / 2 : leaves++;
  };
  place(table.root, 0);
  return { left, depth, leaves, levels: Math.max(...depth) + 1 };
}
