// The dispatcher of Point 2, and rest.
import { haltedColumns, lowest, single } from "./columns.mjs";
import { ack, ackRefused, all, allRefused, note, send, sendRefused, take } from "./steps.mjs";

// What a turn looks at in a running column after its notes, in this sequence.
const KINDS = [["send", sendRefused, send], ["ack", ackRefused, ack], ["all", allRefused, all]];

// The step that running column i offers: "note (lowest j first), send, ack, all".
function offer(bank, i, halted) {
  const unnoted = halted & ~bank.columns[i].noted & ~single(i);
  if (unnoted) {
    const j = lowest(unnoted);
    return { text: `note=${i},${j}`, taken: () => note(bank, i, j) };
  }
  const kind = KINDS.find(([, refused]) => !refused(bank, i));
  return kind ? { text: `${kind[0]}=${i}`, taken: () => kind[2](bank, i) } : null;
}

function firstOffer(bank) {
  const halted = haltedColumns(bank);
  for (let i = 0; i < bank.columns.length; i++) {
    const found = bank.columns[i].running ? offer(bank, i, halted) : null;
    if (found) return found;
  }
  return null;
}

// The turn's step: "if no column has any, the oldest packet is taken". None at rest.
export function turn(bank) {
  return firstOffer(bank) || (bank.network.length ? { text: "take=0", taken: () => take(bank, 0) } : null);
}

export const atRest = bank => turn(bank) === null;
