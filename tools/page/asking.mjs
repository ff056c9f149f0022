// What the proved program is asked beside a run, at any step of it: the closing lists of all columns, and every step that the page believes to be refused,
// so that sets which are empty, columns that are noted and the number of packets are the program's too.
import { haltedColumns, members, NO_DOORS } from "./columns.mjs";
import { atRest } from "./dispatcher.mjs";
import { encode, lineFrames, LIMIT } from "./script.mjs";

const changes = frame => !frame.refused && frame.event.step !== "list";

// The lines of a script that leads to a frame, after the table: all of them, or those alone that change the bank.
function linesUpTo(run, at, all) {
  const lines = [];
  for (const frame of run.frames.slice(1, at + 1)) {
    if (frame.line >= 0 && !frame.unended && !frame.dispatched && (all || changes(frame))) lines.push(frame.text);
  }
  const { dispatched } = run.frames[at];
  return dispatched ? [...lines, `run=${dispatched}`] : lines;
}

// The script that leads to a frame.
export const scriptUpTo = (run, at) => run.head + linesUpTo(run, at, true).map(line => `${line}\n`).join("");

// How many lines the program prints for a line that changes the bank.
const printedLines = line => line.startsWith("run=") ? 2 : 1;

// The answer of each list, its four lines or its refusal.
function answersOf(lines, count) {
  const found = [];
  for (let i = 0, at = 0; i < count; i++) {
    const size = (lines[at] || "").startsWith("column=") ? 4 : 1;
    found.push(lines.slice(at, at + size).map(line => `${line}\n`).join(""));
    at += size;
  }
  return found;
}

// The lines that the bank would refuse, with what is printed for them: none of them changes it.
function refusedAt(bank) {
  const halted = members(haltedColumns(bank)), lines = [`order=${NO_DOORS}`, `take=${bank.network.length}`];
  bank.columns.forEach((_, i) => lines.push(`send=${i}`, `ack=${i}`, `all=${i}`, `back=${i}`, ...halted.map(j => `note=${i},${j}`)));
  return lines.map(line => ({ line, frame: lineFrames(bank, line, 0)[0] })).filter(({ frame }) => frame.refused).map(({ line, frame }) => ({ line, answer: frame.answer }));
}

// What the program lists for every column at a frame, and whether it answers all that it is asked there as the page expects; nothing where the script
// with these lines is longer than the program reads.
export function askedAt(program, run, at) {
  const { bank } = run.frames[at], lines = linesUpTo(run, at, false), refused = refusedAt(bank);
  const listing = bank.columns.map((_, i) => `list=${i}`), expected = listing.map(line => lineFrames(bank, line, 0)[0].answer);
  const script = encode(run.head + [...lines, ...listing, ...refused.map(({ line }) => line)].map(line => `${line}\n`).join(""));
  if (script.length > LIMIT) return null;
  const printed = program(script).split("\n"), before = lines.reduce((count, line) => count + printedLines(line), 1), rest = printed.slice(before);
  const wanted = [...expected, ...refused.map(({ answer }) => answer), `rest=${atRest(bank) ? "yes" : "no"}\n`].join("");
  return { lists: answersOf(rest, bank.columns.length), fits: rest.join("\n") === wanted };
}
