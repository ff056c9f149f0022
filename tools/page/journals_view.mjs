// Journals: two files, dropped, opened, pasted or taken from the bank's run, and what the program finds missing.
import { view } from "./bank_view.mjs";
import { journalOf } from "./journal.mjs";
import { characters, encode } from "./script.mjs";
import { byId, element, escaped } from "./markup.mjs";

const MEANINGS = { 19: "a line has another form, a journal has more than 32,768 bytes, or both are of one column", 20: "a line is twice in a journal", 21: "one got what the other did not send: they are of two banks or of two moments, or a column came back", 11: "what is missing does not fit" };

const state = { program: null, journals: [new Uint8Array(), new Uint8Array()] };

function owner(k) {
  const found = /^column=([0-9]+)\n/.exec(characters(state.journals[k]));
  return found ? found[1] : "?";
}

// A missing line in words; it is of the first journal where it names the second's owner.
function lineTold(line) {
  const [kind, other, number] = line.slice("sent=".length).split(","), k = other === owner(1) ? 0 : 1;
  return `Column ${owner(k)} sent column ${other} ${kind === "1" ? `message ${number}` : `its acknowledgement of ${number}`}, which column ${other} never got.`;
}

function drawJournals(missing) {
  for (const k of [0, 1]) {
    const lines = characters(state.journals[k]).split("\n").filter(Boolean), other = owner(1 - k);
    byId(`journal-${k}`).innerHTML = lines.map(line => element("div", { class: missing.includes(line) && line.split(",")[1] === other ? "sent-missing" : "" }, escaped(line))).join("");
  }
}

// Asks the program what is missing.
function compareJournals() {
  const printed = state.program(new Uint8Array(), ...state.journals), refused = /^refused=([0-9]+)\n$/.exec(printed), missing = refused ? [] : printed.split("\n").filter(Boolean);
  byId("journals-missing").textContent = printed;
  byId("journals-told").className = refused ? "refused" : "";
  byId("journals-told").innerHTML = refused ? escaped(`Refused with ${refused[1]}: ${MEANINGS[refused[1]] || ""}.`) : missing.length ? missing.map(line => escaped(lineTold(line))).join("<br>") : "Nothing is missing.";
  drawJournals(missing);
}

function setJournal(k, bytes) {
  state.journals[k] = bytes;
  byId(`journal-text-${k}`).value = characters(bytes);
  byId("journals-told").innerHTML = byId("journals-missing").textContent = "";
  drawJournals([]);
}

async function openFiles(k, files) {
  const opened = await Promise.all([...files].slice(0, 2).map(file => file.arrayBuffer()));
  opened.forEach((buffer, place) => setJournal(opened.length === 2 ? place : k, new Uint8Array(buffer)));
  if (state.journals.every(bytes => bytes.length)) compareJournals();
}

function sideForm(k) {
  return `<section class="side card" id="journal-side-${k}"><h2>${k ? "Second" : "First"} journal: drop a file here</h2><div class="row"><button id="journal-open-${k}">Open…</button><input id="journal-file-${k}" type="file" multiple hidden></div>`
    + `<textarea id="journal-text-${k}" rows="5" spellcheck="false" aria-label="${k ? "Second" : "First"} journal"></textarea><pre id="journal-${k}" class="journal"></pre></section>`;
}

function connectSide(k) {
  const side = byId(`journal-side-${k}`);
  byId(`journal-open-${k}`).onclick = () => byId(`journal-file-${k}`).click();
  byId(`journal-file-${k}`).onchange = () => openFiles(k, byId(`journal-file-${k}`).files);
  byId(`journal-text-${k}`).oninput = () => { state.journals[k] = encode(byId(`journal-text-${k}`).value); drawJournals([]); };
  side.ondragover = event => { event.preventDefault(); side.classList.add("over"); };
  side.ondragleave = () => side.classList.remove("over");
  side.ondrop = event => { event.preventDefault(); side.classList.remove("over"); openFiles(k, event.dataTransfer.files); };
}

// The journals of two columns of the bank's run, at the step that is looked at.
function takeFromRun() {
  const columns = ["one", "two"].map(name => Number(byId(`journals-${name}`).value)), { run, at } = view;
  if (!run || !run.table || columns.some(i => !(i < run.table.count))) {
    byId("journals-told").textContent = "The bank has no such columns.";
    return;
  }
  columns.forEach((column, k) => setJournal(k, encode(journalOf(run, at, column))));
  compareJournals();
}

export function connectJournals(program) {
  state.program = program;
  byId("journals-sides").innerHTML = sideForm(0) + sideForm(1);
  [0, 1].forEach(connectSide);
  byId("journals-compare").onclick = compareJournals;
  byId("journals-swap").onclick = () => { const [one, two] = state.journals; setJournal(0, two); setJournal(1, one); compareJournals(); };
  byId("journals-run").onclick = takeFromRun;
}
