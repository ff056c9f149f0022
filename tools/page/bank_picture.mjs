// The picture of a bank at a frame: the tree, what each column holds, and the packets that are under way, waiting at their receivers.
import { members } from "./columns.mjs";
import { element, recordClass, words } from "./markup.mjs";
import { kindOf, packetNamed, ranges } from "./telling.mjs";
import { treeLayout } from "./tree_layout.mjs";

const BOX = { narrowest: 64, widest: 164, between: 4 }, CHIP = { width: 20, height: 18 }, MARGIN = 12, LETTER = 6.3;
// Boxes narrower than this have a line more, and their sets in four fields.
const ROOMY = 110, LOW = 58, HIGH = 74;
// More packets than these have no arrow of their own, but for those of the step and of what is selected.
const FEW_PACKETS = 6;
// Trees of more levels than these are drawn closer.
const MANY_LEVELS = 6;

// The sizes of a picture of a tree in a given width.
function geometry(table, width) {
  const tree = treeLayout(table), slot = Math.max(BOX.narrowest + BOX.between, Math.min(BOX.widest + 40, (width - 2 * MARGIN) / tree.leaves));
  const deep = tree.levels > MANY_LEVELS, rows = deep ? 1 : 2, box = Math.min(BOX.widest, slot - (slot > ROOMY ? 12 : BOX.between)), high = box < ROOMY ? HIGH : LOW;
  const level = high + rows * CHIP.height + (deep ? 20 : 40), whole = Math.max(width, slot * tree.leaves + 2 * MARGIN), begin = (whole - slot * tree.leaves) / 2;
  const at = table.up.map((_, i) => ({ x: begin + (tree.left[i] + 0.5) * slot, y: MARGIN + high / 2 + tree.depth[i] * level }));
  return { at, box, high, rows, width: whole, height: MARGIN + tree.levels * level, chips: Math.max(1, Math.floor(box / CHIP.width)) };
}

// Where the packets under way are drawn, by their receivers; those that have no room are counted.
function chipPlaces(network, size) {
  const places = new Map(), waiting = size.at.map(() => 0), room = size.chips * size.rows;
  const total = size.at.map((_, i) => network.filter(packet => packet.to === i).length);
  for (const packet of network) {
    const k = waiting[packet.to]++, most = total[packet.to] > room ? room - 1 : room, { x, y } = size.at[packet.to];
    if (k >= most) continue;
    const wide = Math.min(size.chips, total[packet.to]) * CHIP.width;
    places.set(packet, { x: x - wide / 2 + (k % size.chips + 0.5) * CHIP.width, y: y + size.high / 2 + 3 + (Math.floor(k / size.chips) + 0.5) * CHIP.height });
  }
  return { places, more: total.map(count => Math.max(0, count - room + 1) * (count > room)) };
}

// The point of a box's edge toward another point.
function edge(size, { x, y }, toward) {
  const dx = toward.x - x, dy = toward.y - y, scale = Math.min(size.box / 2 / Math.abs(dx || 1e-9), size.high / 2 / Math.abs(dy || 1e-9), 1);
  return { x: x + dx * scale, y: y + dy * scale };
}

function arrow(size, packet, end, kind) {
  const begin = edge(size, size.at[packet.from], end), bend = 0.14;
  const middle = { x: (begin.x + end.x) / 2 - (end.y - begin.y) * bend, y: (begin.y + end.y) / 2 + (end.x - begin.x) * bend };
  const path = [begin, middle, end].map(({ x, y }) => `${Math.round(x)} ${Math.round(y)}`);
  return element("path", { d: `M${path[0]}Q${path[1]} ${path[2]}`, class: `way ${kind} ${kindOf(packet)} ${recordClass(packet.number)}`, "marker-end": "url(#tip)" });
}

// The arrows of the packets that are shown on their way, that of the step's own packets last.
function arrows(frame, size, places, shown) {
  const { event, bank } = frame, drawn = [];
  const wanted = packet => bank.network.length <= FEW_PACKETS || packet === shown.packet || shown.selected.has(packet.from) || shown.selected.has(packet.to);
  for (const [packet, place] of places) if (packet !== event.put && wanted(packet)) drawn.push(arrow(size, packet, place, packet === shown.packet ? "chosen" : "waiting"));
  if (event.took && !event.left) drawn.push(arrow(size, event.took, edge(size, size.at[event.took.to], size.at[event.took.from]), "taken"));
  if (event.put && places.has(event.put)) drawn.push(arrow(size, event.put, places.get(event.put), "new"));
  return drawn;
}

function chip(packet, place, frame, shown) {
  const state = `${packet === frame.event.put ? " new" : ""}${packet === shown.packet ? " chosen" : ""}`, { x, y } = place, number = String(packet.number);
  const shape = packet.message ? element("rect", { x: x - 8.5, y: y - 8, width: 17, height: 16, rx: 2 }) : element("circle", { cx: x, cy: y, r: 8 });
  const at = frame.bank.network.indexOf(packet), label = `place ${at}: ${packetNamed(packet)}`;
  return element("g", { class: `chip ${kindOf(packet)} ${recordClass(packet.number)}${state}`, "data-packet": at, tabindex: 0, role: "button", "aria-label": label },
    element("title", {}, label), shape, words(x, y + 4, number.length > 2 ? "…" : number, "chip-number"));
}

// What a column's sets hold, in one line; in a narrow box in four fields, where a set of several members has its count.
function setsWritten(column, x, top, size) {
  const sets = [["→", column.send], ["?", column.awaited], ["!", column.owed], ["×", column.noted]];
  if (size.box >= ROOMY) {
    const line = sets.filter(([, set]) => set).map(([sign, set]) => sign + ranges(members(set))).join(" ");
    const short = sets.filter(([, set]) => set).map(([sign, set]) => sign + memberOrCount(members(set))).join(" ");
    return words(x, top + 50, line.length * LETTER <= size.box - 8 ? line : short, "sets");
  }
  return sets.map(([sign, set], k) => set ? words(x + (k % 2 ? 1 : -1) * size.box / 4, top + 50 + (k > 1 ? 15 : 0), sign + memberOrCount(members(set)), "sets small") : "").join("");
}

const memberOrCount = list => list.length === 1 ? list[0] : `(${list.length})`;

function columnTold(bank, i) {
  const column = bank.columns[i], set = list => list ? members(list).join(", ") : "nobody";
  return `column ${i}${i === bank.table.root ? ", the root" : ""}: ${column.running ? "runs" : "halted"}, record ${column.number}, to send to ${set(column.send)}, awaits ${set(column.awaited)}, owes ${set(column.owed)}, `
    + `noted as halted ${set(column.noted)}, goal ${column.whole ? "the whole bank" : "its subtree"}`;
}

function columnBox(frame, i, size, shown) {
  const { bank, event } = frame, column = bank.columns[i], { x, y } = size.at[i], left = x - size.box / 2, top = y - size.high / 2;
  const acting = event.column === i || (event.halted || []).includes(i), roomy = size.box >= ROOMY, whole = column.whole && i !== bank.table.root;
  const kind = `column ${recordClass(column.number)}${column.running ? "" : " halted"}${shown.selected.has(i) ? " chosen" : ""}${acting ? " acting" : ""}`;
  const head = column.running ? `${roomy ? "column " : ""}${i}${i === bank.table.root ? " root" : ""}${whole && !roomy ? " all" : ""}` : `${roomy ? "column " : ""}${i} halted`;
  return element("g", { class: kind, "data-column": i, tabindex: 0, role: "button", "aria-pressed": String(shown.selected.has(i)), "aria-label": columnTold(bank, i) },
    element("title", {}, columnTold(bank, i)),
    element("rect", { x: left, y: top, width: size.box, height: size.high, rx: 6, class: "box" }),
    element("rect", { x: left, y: top, width: size.box, height: 20, rx: 6, class: "band" }),
    words(x, top + 14.5, head, "head"),
    words(x, top + 34, `record ${column.number}${whole && roomy ? ", goal all" : ""}`, "record"),
    setsWritten(column, x, top, size));
}

function edges(table, size) {
  return table.up.map((parent, i) => i === table.root ? "" :
    element("line", { x1: size.at[parent].x, y1: size.at[parent].y, x2: size.at[i].x, y2: size.at[i].y, class: "edge" }));
}

const TIP = '<defs><marker id="tip" viewBox="0 0 10 10" refX="9" refY="5" markerWidth="8" markerHeight="8" markerUnits="userSpaceOnUse" orient="auto"><path d="M0 0L10 5L0 10z" class="tip"/></marker></defs>';

// The picture of a frame in a width; `shown` has the selected columns and packet.
export function bankPicture(frame, width, shown) {
  const { bank } = frame, size = geometry(bank.table, width), { places, more } = chipPlaces(bank.network, size);
  const rest = more.map((count, i) => count ? words(size.at[i].x + size.box / 2 - 10, size.at[i].y + size.high / 2 + 3 + (size.rows - 0.5) * CHIP.height + 4, `+${count}`, "more", { "data-column": i }) : "");
  const parts = [TIP, ...edges(bank.table, size), ...bank.columns.map((_, i) => columnBox(frame, i, size, shown)),
    ...arrows(frame, size, places, shown), ...[...places].map(([packet, place]) => chip(packet, place, frame, shown)), ...rest];
  return element("svg", { xmlns: "http://www.w3.org/2000/svg", width: size.width, height: size.height, viewBox: `0 0 ${size.width} ${size.height}`, role: "group", "aria-label": "The bank" }, ...parts);
}
