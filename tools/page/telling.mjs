// Each step of a run in a sentence, in the words of the documents.
import { members, occupiedDoors } from "./columns.mjs";
import { atRest } from "./dispatcher.mjs";

// "1", "1 and 2", "1, 2 and 3"
function enumerated(list) {
  return list.length < 2 ? list.join("") : `${list.slice(0, -1).join(", ")} and ${list[list.length - 1]}`;
}

// "1, 2, 5–15": three or more in a row by the first and the last.
export function ranges(list) {
  const parts = [];
  for (let from = 0, to; from < list.length; from = to + 1) {
    for (to = from; list[to + 1] === list[to] + 1;) to++;
    if (to - from > 1) parts.push(`${list[from]}–${list[to]}`);
    else parts.push(...list.slice(from, to + 1));
  }
  return parts.join(", ");
}

export const columnsNamed = list => `column${list.length === 1 ? "" : "s"} ${enumerated(list)}`;
export const capital = words => words[0].toUpperCase() + words.slice(1);
export const counted = (count, word) => `${count} ${word}${count === 1 ? "" : "s"}`;

function doorsNamed(doors) {
  const occupied = occupiedDoors(doors);
  if (!occupied.length) return "no door is occupied";
  return occupied.length === 64 ? "all 64 doors are occupied" : `door${occupied.length === 1 ? "" : "s"} ${enumerated(occupied)} ${occupied.length === 1 ? "is" : "are"} occupied`;
}

export const kindOf = packet => packet.message ? "message" : "acknowledgement";
export const packetNamed = packet => packet.message ? `message ${packet.number} from column ${packet.from} to column ${packet.to}`
  : `acknowledgement of ${packet.number} from column ${packet.from} to column ${packet.to}`;

const joins = joining => joining ? `its children, ${columnsNamed(members(joining))}, join those to send to` : "it has no children, so nobody joins those to send to";
const toSendTo = set => set ? `has ${columnsNamed(members(set))} to send to` : "has no children to send to";

function sendTold(event) {
  const { column, served } = event;
  if (event.itself) return `Column ${column} comes to itself, which has the record: nothing is sent.`;
  if (event.put) return `Column ${column} sends message ${event.put.number} to column ${served} and awaits its acknowledgement.`;
  if (event.notPut) return `Column ${column} sends to column ${served}, which is halted: no packet is put, and column ${column} awaits it until it notes the halt.`;
  return `Column ${column} has noted column ${served} as halted: ${joins(event.joining)}.`;
}

function messageTaken(event, bank) {
  const { took, column } = event, begin = `Column ${column} takes message ${took.number} from column ${took.from}`;
  if (event.left) return `Message ${took.number} from column ${took.from} stays where it is: column ${column} still owes, and first acknowledges ${(event.put || event.notPut).number} to column ${(event.put || event.notPut).to}.`;
  if (event.equal) return `${begin}: it has this number already, and owes column ${took.from} an acknowledgement.`;
  if (event.lower) return `${begin}, a lower number than its own: it acknowledges ${took.number} at once${event.notPut ? ", but its sender is halted, and no packet is put" : ""}.`;
  return `${begin}: its record is now ${took.number}. It owes column ${took.from} an acknowledgement and ${toSendTo(bank.columns[column].send)}.`;
}

function acknowledgementTaken(event, bank) {
  const { took, column } = event, begin = `Column ${column} takes the acknowledgement of ${took.number} from column ${took.from}`;
  if (event.otherNumber) return `${begin}, which is not its own number: nothing changes.`;
  if (!event.awaited) return `${begin}, which it did not await: nothing changes.`;
  const { awaited } = bank.columns[column];
  return `${begin} and awaits ${awaited ? `now only ${columnsNamed(members(awaited))}` : "nobody any more"}.`;
}

function ackTold(event) {
  const packet = event.put || event.notPut;
  return `Column ${event.column} acknowledges ${packet.number} to column ${packet.to}${event.notPut ? ", which is halted: no packet is put" : ""}.`;
}

function haltTold(event) {
  const together = event.halted.length > 1 ? " together" : "";
  const vanished = event.vanished ? ` ${capital(counted(event.vanished, "packet"))} to ${together ? "them" : "it"} vanish${event.vanished === 1 ? "es" : ""}.` : "";
  return `${capital(columnsNamed(event.halted))} halt${together ? "" : "s"}${together}.${vanished}`;
}

const TOLD = {
  table: (event, bank) => `A fresh bank of ${counted(bank.columns.length, "column")}: all of them run and hold record 0. Column ${bank.table.root} is the root.`,
  order: (event, bank) => `Column ${event.column}, the root, takes order ${bank.columns[event.column].number}: ${doorsNamed(bank.columns[event.column].doors)}. It ${toSendTo(bank.columns[event.column].send)}.`,
  send: sendTold,
  take: (event, bank) => event.took.message ? messageTaken(event, bank) : acknowledgementTaken(event, bank),
  ack: ackTold,
  all: (event, bank) => `Column ${event.column} takes over: its goal is the whole bank, and it begins at the root, column ${bank.table.root}.`,
  note: event => `Column ${event.column} notes that column ${event.noted} has halted${event.joining === undefined ? "" : `, which it awaited: ${joins(event.joining)}`}.`,
  halt: haltTold,
  back: (event, bank) => `Column ${event.column} comes back with record ${bank.columns[event.column].number}, that of column ${event.from}, the lowest that runs.`,
  list: (event, bank) => `Column ${event.column} prints its closing list: number ${bank.columns[event.column].number}, ${doorsNamed(bank.columns[event.column].doors)}.`,
  run: (event, bank) => `The dispatcher took ${counted(event.steps, "step")}${atRest(bank) ? "" : ", as many as the limit lets it"}.`,
  end: () => "The script ends.",
};

// What happened in a frame of a run.
export function sentence(frame) {
  return frame.refused ? `Refused with ${frame.refused.refused}: ${frame.refused.why}. Nothing changes.` : TOLD[frame.event.step](frame.event, frame.bank);
}

// The line of the script that a frame belongs to, as people count them.
export const lineNamed = frame => frame.line < 0 ? "" : `line ${frame.line + 1}${frame.dispatched ? `, step ${frame.dispatched} of the dispatcher` : ""}`;
