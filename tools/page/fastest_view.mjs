// The fastest tree: three fields, the program's table, and the tree with its arrival times, drawn only where the page's own tree is the program's.
import { withChildren } from "./columns.mjs";
import { fastestTree } from "./fastest_tree.mjs";
import { encode, numbers } from "./script.mjs";
import { byId, element, escaped, words } from "./markup.mjs";
import { treeLayout } from "./tree_layout.mjs";

const BOX = { width: 62, height: 40 }, LEVEL = 92, MARGIN = 14;
const MEANINGS = { 1: "a number has another form: digits without a leading zero, two at most for the columns and three for delay and gap", 2: "a bank has 1 to 16 columns", 17: "delay and gap are 1 to 255" };

const state = { program: null, printed: "" };

function requestOf() {
  return ["columns", "delay", "gap"].map(name => `${name}=${byId(`fastest-${name}`).value.trim()}\n`).join("");
}

// The tree of a table, with a text under each column's number and on each edge.
export function treePicture(table, width, under, onEdge, level = LEVEL) {
  const tree = treeLayout(table), slot = Math.max(BOX.width + 8, Math.min(120, (width - 2 * MARGIN) / tree.leaves)), whole = Math.max(slot * tree.leaves + 2 * MARGIN, Math.min(width, 400));
  const begin = (whole - slot * tree.leaves) / 2, x = i => begin + (tree.left[i] + 0.5) * slot, y = i => MARGIN + BOX.height / 2 + tree.depth[i] * level;
  const parts = table.up.map((parent, i) => i === table.root ? "" : element("line", { x1: x(parent), y1: y(parent), x2: x(i), y2: y(i), class: "edge" })
    + words(x(i) + (x(parent) - x(i)) * 0.42, y(i) + (y(parent) - y(i)) * 0.42, onEdge(i), "axis"));
  const boxes = table.up.map((_, i) => element("g", { class: "column record1" }, element("rect", { x: x(i) - BOX.width / 2, y: y(i) - BOX.height / 2, width: BOX.width, height: BOX.height, rx: 6, class: "box" }),
    words(x(i), y(i) - 3, `${i}${i === table.root ? " root" : ""}`, "number"), words(x(i), y(i) + 13, under(i), "axis")));
  const height = 2 * MARGIN + BOX.height + (tree.levels - 1) * level;
  return element("svg", { xmlns: "http://www.w3.org/2000/svg", width: whole, height, viewBox: `0 0 ${whole} ${height}`, role: "img", "aria-label": "The tree" }, ...parts, ...boxes);
}

function drawTree(up, delay, gap) {
  const tree = fastestTree(up.length, delay, gap), fits = tree.up.join() === up.join();
  byId("fastest-told").textContent = fits ? `Complete at time ${Math.max(...tree.arrival)}. Each edge has the time at which the message is sent, each column the time at which it has it.`
    : `The program's tree is not the one that the page computes, ${tree.up.join(",")}: the times are not drawn.`;
  const table = withChildren({ root: 0, up });
  byId("fastest-picture").innerHTML = treePicture(table, byId("fastest-picture").clientWidth, i => fits ? `time ${tree.arrival[i]}` : "", i => fits ? `at ${tree.sent[i]}` : "");
  const rows = fits ? tree.arrival.map((time, i) => `<tr><td>${i}</td><td>${i ? tree.up[i] : ""}</td><td>${i ? tree.sent[i] : ""}</td><td>${time}</td></tr>`) : [];
  byId("fastest-arrivals").innerHTML = `<table><thead><tr><th>Column</th><th>From</th><th>Sent at</th><th>Arrives at</th></tr></thead><tbody>${rows.join("")}</tbody></table>`;
}

// Asks the program for the table of the three fields.
export function makeFastest() {
  state.printed = state.program(encode(requestOf()));
  byId("fastest-table").textContent = state.printed;
  const up = /^up=([0-9,]+)$/m.exec(state.printed), refused = /^refused=([0-9]+)$/m.exec(state.printed);
  byId("fastest-use").disabled = byId("fastest-save").disabled = !up;
  byId("fastest-told").className = refused ? "refused" : "";
  if (up) drawTree(numbers(up[1]), Number(byId("fastest-delay").value), Number(byId("fastest-gap").value));
  else {
    byId("fastest-told").innerHTML = escaped(`Refused with ${refused[1]}: ${MEANINGS[refused[1]] || "the request is not answered"}.`);
    byId("fastest-picture").innerHTML = byId("fastest-arrivals").innerHTML = "";
  }
}

export function connectFastest(program, { use, save }) {
  state.program = program;
  byId("fastest-form").onsubmit = event => { event.preventDefault(); makeFastest(); };
  byId("fastest-use").onclick = () => use(`${state.printed}order=0102000000000000\nrun=9999\nlist=0\n`);
  byId("fastest-save").onclick = () => save("bank.table", state.printed);
}
