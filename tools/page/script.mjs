// A script's run: what the proved program printed for it, and beside it each step as the page follows it. Where the two differ, the run ends before the
// difference and tells it.
import { closingList, freshBank, withChildren } from "./columns.mjs";
import { atRest, turn } from "./dispatcher.mjs";
import { ack, all, back, halt, note, order, refusal, send, take } from "./steps.mjs";

export const LIMIT = 65536;
const NUMERAL = "(?:0|[1-9][0-9]?)", NUMERALS = `${NUMERAL}(?:,${NUMERAL})*`;
const TABLE = new RegExp(`^columns=(${NUMERAL})\\nroot=(${NUMERAL})\\nup=(${NUMERALS})\\n`);
const FORMS = {
  order: /^([0-9a-f]{16})$/, take: /^(0|[1-9][0-9]{0,2})$/, run: /^(0|[1-9][0-9]{0,3})$/, halt: new RegExp(`^(${NUMERALS})$`),
  note: new RegExp(`^(${NUMERAL},${NUMERAL})$`),
};
for (const name of ["send", "ack", "all", "back", "list"]) FORMS[name] = new RegExp(`^(${NUMERAL})$`);
const STEPS = { order, send, take, ack, all, note, halt };

export const encode = text => new TextEncoder().encode(text);
export const numbers = text => text.split(",").map(Number);

// A byte a character, as the program reads it.
export function characters(bytes) {
  const parts = [];
  for (let at = 0; at < bytes.length; at += 4096) parts.push(String.fromCharCode(...bytes.subarray(at, at + 4096)));
  return parts.join("");
}

// ---- the table

// The line of a form at the start of a text: what it names, or nothing where the text begins otherwise; refused with 1 where it is not ended so.
function optionalLine(text, key, form) {
  if (!text.startsWith(key)) return { named: null, size: 0 };
  const found = new RegExp(`^${key}(${form})\\n`).exec(text);
  return found ? { named: found[1], size: found[0].length } : refusal(1, `the line ${key} has another form`);
}

function climbs(up, root, from) {
  let at = from;
  for (let step = 0; step < up.length; step++) at = up[at];
  return at === root;
}

function treeRefused({ count, root, up, first }) {
  if (count === 0 || count > 16) return refusal(2, `a bank has 1 to 16 columns, and not ${count}`);
  if (root >= count) return refusal(3, `the root, ${root}, is no column of the bank`);
  if (up.length !== count) return refusal(3, `up= has ${up.length} parents for ${count} columns`);
  if (up.some(parent => parent >= count)) return refusal(3, "a parent is no column of the bank");
  if (up[root] !== root) return refusal(3, "the root is not its own parent");
  if (up.some((_, column) => !climbs(up, root, column))) return refusal(3, "the parents of a column do not lead to the root");
  if (first.length !== count || first.some(column => column >= count)) return refusal(3, "first= does not list the columns of the bank");
  return new Set(first).size < count ? refusal(3, "first= lists a column twice") : null;
}

// The table at the start of a text and how many characters it has, or its refusal.
export function readTable(text) {
  const found = TABLE.exec(text);
  if (!found) return refusal(1, text.includes("\r") ? "the lines end in a carriage return and a newline, where a newline alone is asked for" : "the table does not begin with the lines columns=, root= and up= of their form");
  const count = Number(found[1]), up = numbers(found[3]);
  const sequence = optionalLine(text.slice(found[0].length), "first=", NUMERALS);
  if (sequence.refused) return sequence;
  const watch = optionalLine(text.slice(found[0].length + sequence.size), "watch=", "root|sender");
  if (watch.refused) return watch;
  const first = sequence.named === null ? up.map((_, i) => i) : numbers(sequence.named);
  const table = { count, root: Number(found[2]), up, first, watch: watch.named || "root" };
  return treeRefused(table) || { table: withChildren(table), size: found[0].length + sequence.size + watch.size };
}

// ---- lines

// A line's name and what it is given, or nothing where it has none of the forms.
function readLine(text) {
  const [name] = text.split("="), found = Object.hasOwn(FORMS, name) && FORMS[name].exec(text.slice(name.length + 1));
  if (!found || text[name.length] !== "=") return null;
  return { name, given: name === "order" ? [found[1]] : numbers(found[1]) };
}

// The frames of `run=`: one for each step that is taken, and its own.
function dispatched(bank, limit, frame) {
  const frames = [];
  let now = bank;
  for (let next; frames.length < limit && (next = turn(now));) {
    const done = next.taken();
    if (done.refused) break;
    now = done.bank;
    frames.push({ ...frame, text: next.text, dispatched: frames.length + 1, answer: "", ...done });
  }
  const event = { step: "run", steps: frames.length, limit };
  return [...frames, { ...frame, answer: `steps=${frames.length}\nstep=ok\n`, bank: now, event }];
}

function listed(bank, i, frame) {
  const refused = i >= bank.columns.length ? refusal(4, `the bank has no column ${i}`) : bank.columns[i].running ? null : refusal(5, `column ${i} is halted`);
  if (refused) return [refusedFrame(bank, refused, frame)];
  return [{ ...frame, answer: closingList(bank, i), bank, event: { step: "list", column: i } }];
}

const refusedFrame = (bank, refused, frame) => ({ ...frame, answer: `refused=${refused.refused}\n`, bank, event: {}, refused });

// The frames of a line: what it answers, and the bank after it.
export function lineFrames(bank, text, line) {
  const read = readLine(text), frame = { line, text, dispatched: 0 };
  if (!read) return [refusedFrame(bank, refusal(13, "the line has none of the forms"), frame)];
  if (read.name === "run") return dispatched(bank, read.given[0], frame);
  if (read.name === "list") return listed(bank, read.given[0], frame);
  const done = read.name === "back" ? back(bank, read.given[0], atRest(bank)) : STEPS[read.name](bank, ...read.given);
  return done.refused ? [refusedFrame(bank, done, frame)] : [{ ...frame, answer: "step=ok\n", ...done }];
}

// The frames of a script after its table, line by line, the end last.
function* frameGroups(text, read) {
  const before = text.slice(0, read.size).split("\n").length - 1, lines = text.slice(read.size).split("\n"), last = lines.pop();
  let bank = freshBank(read.table);
  yield [{ line: before - 1, text: "table", dispatched: 0, answer: "table=ok\n", bank, event: { step: "table" } }];
  for (const [k, line] of lines.entries()) {
    const frames = lineFrames(bank, line, before + k);
    bank = frames[frames.length - 1].bank;
    yield frames;
  }
  if (last) yield [refusedFrame(bank, refusal(13, "the line does not end"), { line: before + lines.length, text: last, dispatched: 0, unended: true })];
  yield [{ line: -1, text: "end", dispatched: 0, answer: atRest(bank) ? "rest=yes\n" : "rest=no\n", bank, event: { step: "end" } }];
}

// Where what the program printed does not go on with what the page expects.
const difference = (frame, printed, expected) => ({ line: frame.line, text: frame.text, expected, printed: printed.split("\n").slice(0, 4).join("\n") });

// The run of a script's bytes. `program` prints for bytes; `frames` are those that it bears out; `unfit` is the first difference, if there is one.
export function runScript(program, bytes) {
  const printed = program(bytes), text = characters(bytes), run = { printed, frames: [], unfit: null, refused: null, table: null, head: "" };
  const read = bytes.length > LIMIT ? refusal(13, `the script has more than ${LIMIT} bytes`) : readTable(text);
  if (read.refused) {
    run.refused = printed === `refused=${read.refused}\n` ? read : null;
    run.unfit = run.refused ? null : difference({ line: 0, text: "table" }, printed, `refused=${read.refused}\n`);
    return run;
  }
  run.table = read.table;
  run.head = text.slice(0, read.size);
  let at = 0;
  for (const frames of frameGroups(text, read)) {
    const { answer } = frames[frames.length - 1];
    if (!printed.startsWith(answer, at)) {
      run.unfit = difference(frames[0], printed.slice(at), answer);
      return run;
    }
    at += answer.length;
    for (const frame of frames) run.frames.push(frame);
  }
  if (at !== printed.length) run.unfit = difference({ line: -1, text: "end" }, printed.slice(at), "");
  return run;
}
