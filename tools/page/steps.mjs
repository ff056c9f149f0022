// The steps of a bank, written from documents 01 and 02. An accepted step answers the bank after it and the event, a refused one its number and why.
import { changed, earliest, haltedColumns, has, lowest, single, without } from "./columns.mjs";

const CAPACITY = 512, HIGHEST = 4294967295;

export const refusal = (refused, why) => ({ refused, why });
const accepted = (bank, event) => ({ bank, event });

const unknown = (bank, i) => i >= bank.columns.length ? refusal(4, `the bank has no column ${i}`) : null;
const halted = (bank, i) => bank.columns[i].running ? null : refusal(5, `column ${i} is halted`);
const notActing = (bank, i) => unknown(bank, i) || halted(bank, i);

// ---- where send, ack, all and note are refused with 6

export const sendRefused = (bank, i) => bank.columns[i].send ? null : refusal(6, `column ${i} has nobody to send to`);

export function ackRefused(bank, i) {
  const column = bank.columns[i], { root, watch } = bank.table;
  if (!column.owed) return refusal(6, `column ${i} owes nobody an acknowledgement`);
  if (watch === "sender" ? i !== root && column.whole : column.whole) return null;
  if (column.send) return refusal(6, `column ${i} still has somebody to send to`);
  return column.awaited ? refusal(6, `column ${i} still awaits an acknowledgement`) : null;
}

export function allRefused(bank, i) {
  const column = bank.columns[i], { root, watch } = bank.table;
  if (i === root) return refusal(6, `column ${i} is the root`);
  const watched = watch === "sender" ? column.sender : root;
  if (!has(column.noted, watched)) return refusal(6, `column ${i} has not noted column ${watched}, ${watch === "sender" ? "which sent it its record" : "the root"}, as halted`);
  if (column.whole) return refusal(6, `column ${i} already has the whole bank as its goal`);
  if (column.send) return refusal(6, `column ${i} still has somebody to send to`);
  return column.awaited ? refusal(6, `column ${i} still awaits an acknowledgement`) : null;
}

function noteRefused(bank, i, j) {
  if (i === j) return refusal(6, `column ${i} cannot note itself`);
  if (bank.columns[j].running) return refusal(6, `column ${j} runs`);
  return has(bank.columns[i].noted, j) ? refusal(6, `column ${i} has noted column ${j} already`) : null;
}

// ---- packets

// "A packet to a halted column is never put; the step counts as done."
function put(bank, packet, event) {
  if (!bank.columns[packet.to].running) return accepted(bank, { ...event, notPut: packet });
  if (bank.network.length >= CAPACITY) return refusal(9, `${CAPACITY} packets are under way`);
  return accepted({ ...bank, network: [...bank.network, packet] }, { ...event, put: packet });
}

const acknowledgement = (from, to, number) => ({ message: false, from, to, number });

// "The lowest owed gets an acknowledgement of i's number and is struck out."
function acknowledgeLowest(bank, i, event) {
  const { owed, number } = bank.columns[i], to = lowest(owed);
  return put(changed(bank, i, { owed: without(owed, to) }), acknowledgement(i, to, number), event);
}

// ---- the steps

export function order(bank, doors) {
  const { root, watch, children } = bank.table, column = bank.columns[root];
  const refused = halted(bank, root);
  if (refused) return refused;
  if (column.send) return refusal(7, "the root still has somebody to send to");
  if (column.awaited) return refusal(7, "the root still awaits an acknowledgement");
  if (watch === "sender" && column.owed) return refusal(7, "the root still owes an acknowledgement");
  if (column.number === HIGHEST) return refusal(8, "the last order number is given");
  return accepted(changed(bank, root, { number: column.number + 1, doors, send: children[root] }), { step: "order", column: root });
}

export function send(bank, i) {
  const refused = notActing(bank, i) || sendRefused(bank, i);
  if (refused) return refused;
  const column = bank.columns[i], served = earliest(bank.table, column.send), rest = without(column.send, served);
  const event = { step: "send", column: i, served };
  if (served === i) return accepted(changed(bank, i, { send: rest }), { ...event, itself: true });
  if (has(column.noted, served)) {
    const joining = bank.table.children[served];
    return accepted(changed(bank, i, { send: rest | joining }), { ...event, joining });
  }
  const message = { message: true, from: i, to: served, number: column.number, doors: column.doors };
  return put(changed(bank, i, { send: rest, awaited: column.awaited | single(served) }), message, event);
}

// A message with a higher number: "record replaced, goal own subtree, owed only the sender, nobody awaited, children to send to"; the root keeps its goal.
function receive(bank, packet, event) {
  const { to, from, number, doors } = packet, { root, children } = bank.table;
  const fields = { number, doors, whole: to === root, sender: from, owed: single(from), awaited: 0, send: children[to] };
  return accepted(changed(bank, to, fields), { ...event, received: true });
}

function takeMessage(bank, packet, event) {
  const { to, from, number } = packet, column = bank.columns[to];
  if (number === column.number) return accepted(changed(bank, to, { owed: column.owed | single(from) }), { ...event, equal: true });
  if (number < column.number) return put(bank, acknowledgement(to, from, number), { ...event, lower: true });
  return receive(bank, packet, event);
}

function takeAcknowledgement(bank, packet, event) {
  const { to, from, number } = packet, column = bank.columns[to];
  if (number !== column.number) return accepted(bank, { ...event, otherNumber: true });
  return accepted(changed(bank, to, { awaited: without(column.awaited, from) }), { ...event, awaited: has(column.awaited, from) });
}

export function take(bank, place) {
  if (place >= bank.network.length) return refusal(10, `no packet is at place ${place}: ${bank.network.length} are under way`);
  const packet = bank.network[place], column = bank.columns[packet.to], event = { step: "take", column: packet.to, took: packet };
  if (packet.message && packet.number > column.number && column.owed) return acknowledgeLowest(bank, packet.to, { ...event, left: true });
  const rest = { ...bank, network: bank.network.filter((_, k) => k !== place) };
  return packet.message ? takeMessage(rest, packet, event) : takeAcknowledgement(rest, packet, event);
}

export function ack(bank, i) {
  return notActing(bank, i) || ackRefused(bank, i) || acknowledgeLowest(bank, i, { step: "ack", column: i });
}

export function all(bank, i) {
  return notActing(bank, i) || allRefused(bank, i) || accepted(changed(bank, i, { whole: true, send: single(bank.table.root) }), { step: "all", column: i });
}

export function note(bank, i, j) {
  const refused = unknown(bank, i) || unknown(bank, j) || halted(bank, i) || noteRefused(bank, i, j);
  if (refused) return refused;
  const column = bank.columns[i], event = { step: "note", column: i, noted: j }, noted = column.noted | single(j);
  if (!has(column.awaited, j)) return accepted(changed(bank, i, { noted }), event);
  const joining = bank.table.children[j];
  return accepted(changed(bank, i, { noted, awaited: without(column.awaited, j), send: column.send | joining }), { ...event, joining });
}

// "If any is 4 or 5, none halts."
export function halt(bank, ...named) {
  const refused = named.map(i => unknown(bank, i)).find(Boolean) || named.map(i => halted(bank, i)).find(Boolean);
  if (refused) return refused;
  const columns = bank.columns.map((column, i) => named.includes(i) ? { ...column, running: false } : column);
  const network = bank.network.filter(packet => !named.includes(packet.to));
  const vanished = bank.network.length - network.length;
  return accepted({ ...bank, columns, network }, { step: "halt", halted: [...new Set(named)].sort((one, other) => one - other), vanished });
}

// Point 7, where `atRest` tells whether the bank is at rest.
export function back(bank, j, atRest) {
  const { root } = bank.table;
  if (unknown(bank, j)) return unknown(bank, j);
  if (bank.columns[j].running) return refusal(6, `column ${j} runs`);
  if (j === root) return refusal(15, "the root may not come back: it could give a lost number again");
  if (!atRest) return refusal(14, "the bank is not at rest");
  const from = bank.columns.findIndex(column => column.running);
  if (from < 0) return refusal(16, "no column runs");
  const { number, doors } = bank.columns[from];
  const fields = { running: true, number, doors, send: 0, awaited: 0, owed: 0, noted: without(haltedColumns(bank), j), whole: !bank.columns[root].running, sender: from };
  const columns = bank.columns.map((column, i) => i === j ? fields : { ...column, noted: without(column.noted, j) });
  return accepted({ ...bank, columns }, { step: "back", column: j, from });
}
