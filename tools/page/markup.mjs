// Text of SVG and HTML, written as strings.

const ESCAPED = { "&": "&amp;", "<": "&lt;", ">": "&gt;", '"': "&quot;" };
export const escaped = text => String(text).replace(/[&<>"]/g, character => ESCAPED[character]);

// An element with its attributes, those that are undefined or false left out, and what it holds, which is written already.
export function element(name, attributes, ...content) {
  const written = Object.entries(attributes).filter(([, value]) => value !== undefined && value !== false)
    .map(([key, value]) => ` ${key}="${escaped(typeof value === "number" ? Math.round(value * 10) / 10 : value)}"`);
  return `<${name}${written.join("")}>${content.join("")}</${name}>`;
}

export const words = (x, y, text, kind, more = {}) => element("text", { x, y, class: kind, "text-anchor": "middle", ...more }, escaped(text));

// How many colours of records the page has beside that of record 0; after the last the first comes again.
const RECORD_COLOURS = 7;
export const recordClass = number => `record${number === 0 ? 0 : 1 + (number - 1) % RECORD_COLOURS}`;

export const byId = id => document.getElementById(id);
