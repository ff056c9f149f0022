// The columns of a bank and the packets under way as tables, and the doors as a wall of lockers.
import { has, members, occupiedDoors } from "./columns.mjs";
import { element, escaped, recordClass } from "./markup.mjs";
import { kindOf, ranges } from "./telling.mjs";

const cells = (kind, list) => list.map(text => element(kind, {}, text)).join("");
const set = columns => ranges(members(columns));
const record = number => element("span", { class: `dot ${recordClass(number)}` }, escaped(number));

const HEADS = ["", "Column", "Record", "Doors", "To send to", "Awaits", "Owes", "Noted as<br>halted", "Goal"];

function columnRow(bank, i, shown) {
  const column = bank.columns[i], { root, watch } = bank.table;
  const mark = `<input type="checkbox" data-mark="${i}" aria-label="select column ${i}"${shown.selected.has(i) ? " checked" : ""}>`;
  const name = `${i}${i === root ? " root" : ""}${column.running ? "" : ", halted"}`;
  const list = [mark, name, record(column.number), String(occupiedDoors(column.doors).length), set(column.send), set(column.awaited), set(column.owed), set(column.noted),
    column.whole ? "whole bank" : "subtree", ...watch === "sender" ? [String(column.sender)] : []];
  return element("tr", { "data-column": i, class: `${column.running ? "" : "halted"}${shown.selected.has(i) ? " chosen" : ""}` }, cells("td", list));
}

export function columnsTable(bank, shown) {
  const heads = bank.table.watch === "sender" ? [...HEADS, "Its<br>sender"] : HEADS;
  return `<table><thead><tr>${cells("th", heads)}</tr></thead><tbody>${bank.columns.map((_, i) => columnRow(bank, i, shown)).join("")}</tbody></table>`;
}

// More packets than these are listed for the selected columns alone.
const MANY_PACKETS = 60;

function packetRow(packet, place, shown) {
  return element("tr", { "data-packet": place, class: packet === shown.packet ? "chosen" : "" },
    cells("td", [String(place), kindOf(packet), record(packet.number), String(packet.from), String(packet.to), `<button data-line="take=${place}">Take</button>`]));
}

// The packets under way, oldest first; each can be taken.
export function packetsTable(bank, shown) {
  const { network } = bank, wanted = packet => network.length <= MANY_PACKETS || packet === shown.packet || shown.selected.has(packet.to) || shown.selected.has(packet.from);
  const rows = network.map((packet, place) => wanted(packet) ? packetRow(packet, place, shown) : "").filter(Boolean);
  if (!network.length) return "<p>No packet is under way.</p>";
  const told = rows.length < network.length ? `<p class="faint">${rows.length} of ${network.length}: those from and to what is selected.</p>` : "";
  return `${told}<table><thead><tr>${cells("th", ["Place", "Packet", "Number", "From", "To", ""])}</tr></thead><tbody>${rows.join("")}</tbody></table>`;
}

// The 64 doors, a row of lockers for each eight; where `choose` is so each is a button.
export function lockersWall(doors, choose) {
  const occupied = new Set(occupiedDoors(doors)), lockers = [];
  for (let door = 1; door <= 64; door++) {
    const taken = occupied.has(door), label = `door ${door}${taken ? ", occupied" : ""}`;
    lockers.push(element(choose ? "button" : "span", { class: `locker${taken ? " occupied" : ""}`, "data-door": choose ? door : undefined, "aria-pressed": choose ? String(taken) : undefined, "aria-label": label, title: label }, String(door)));
  }
  return `<div class="wall">${lockers.join("")}</div>`;
}

// The steps that may be asked of a column, each with whether the bank would refuse it now.
export function columnSteps(bank, i) {
  const notes = bank.columns.map((_, j) => j).filter(j => j !== i && !bank.columns[j].running && !has(bank.columns[i].noted, j));
  const running = bank.columns[i].running;
  return [["Send", `send=${i}`], ["Acknowledge", `ack=${i}`], ["Take over", `all=${i}`], ...running ? notes.map(j => [`Note ${j}`, `note=${i},${j}`]) : [],
    running ? ["Halt", `halt=${i}`] : ["Come back", `back=${i}`], ["List", `list=${i}`]];
}
