// The page begins: the programs are made, the parts connected, and the part that the address names is shown.
import { connectBank, runText, saveText } from "./bank_actions.mjs";
import { draw, go, view } from "./bank_view.mjs";
import { connectFastest, makeFastest } from "./fastest_view.mjs";
import { connectJournals } from "./journals_view.mjs";
import { connectLosses, startLosses } from "./losses_view.mjs";
import { bytesOfBase64, programOf } from "./programs.mjs";
import { byId, element, escaped } from "./markup.mjs";
import { lineNamed, sentence } from "./telling.mjs";

const PARTS = { bank: draw, fastest: makeFastest, losses: startLosses, journals: () => {}, about: () => {} };
// More steps than these are not printed.
const MOST_PRINTED = 500;

function showPart(name) {
  for (const part of Object.keys(PARTS)) {
    byId(`${part}-part`).hidden = part !== name;
    byId(`${part}-tab`).setAttribute("aria-selected", String(part === name));
    byId(`${part}-tab`).tabIndex = part === name ? 0 : -1;
  }
  PARTS[name]();
}

function connectTabs() {
  const names = Object.keys(PARTS);
  names.forEach((name, k) => {
    byId(`${name}-tab`).onclick = () => showPart(name);
    byId(`${name}-tab`).onkeydown = event => {
      const move = { ArrowRight: 1, ArrowLeft: names.length - 1 }[event.key];
      if (!move) return;
      event.stopPropagation();
      const next = names[(k + move) % names.length];
      showPart(next);
      byId(`${next}-tab`).focus();
    };
  });
}

// The steps of the run in words, for paper.
function writeForPrint() {
  const frames = view.run ? view.run.frames.slice(0, MOST_PRINTED) : [];
  const rows = frames.map(frame => `<tr><td>${escaped(lineNamed(frame))}</td><td>${escaped(frame.text)}</td><td style="white-space:normal">${escaped(sentence(frame))}</td></tr>`);
  byId("steps-printed").innerHTML = `<h2>Steps</h2><table>${rows.join("")}</table>`;
}

async function fingerprint(bytes) {
  if (!globalThis.crypto || !crypto.subtle) return "";
  const digest = new Uint8Array(await crypto.subtle.digest("SHA-256", bytes));
  return [...digest].map(byte => byte.toString(16).padStart(2, "0")).join("").slice(0, 16);
}

async function makePrograms() {
  const embedded = JSON.parse(byId("programs").textContent), programs = {};
  for (const [name, text] of Object.entries(embedded)) {
    const bytes = bytesOfBase64(text);
    programs[name] = await programOf(bytes);
    byId("about-programs").innerHTML += element("tr", {}, `<td><code>./${escaped(name)}</code></td><td>${bytes.length} bytes</td><td>SHA-256 begins ${await fingerprint(bytes)}</td>`);
  }
  return programs;
}

// The address may name a part, an example and a step: #bank, #bank=taken-over, #bank=taken-over:11.
function begin(examples) {
  const [name, where = ""] = location.hash.slice(1).split("="), [example, step = "0"] = where.split(":");
  const chosen = examples[example] ? example : "taken-over";
  byId("example").value = chosen;
  runText(examples[chosen]);
  if (view.run.frames.length) go(Number(step) || 0);
  showPart(PARTS[name] ? name : "bank");
}

async function start() {
  const programs = await makePrograms(), examples = JSON.parse(byId("examples").textContent);
  view.program = programs.lockers;
  connectTabs();
  connectBank(examples);
  connectFastest(programs.fastest, { save: saveText, use: script => { runText(script); showPart("bank"); } });
  connectLosses(programs);
  connectJournals(programs.journals);
  addEventListener("beforeprint", writeForPrint);
  begin(examples);
  document.body.dataset.milliseconds = String(Math.round(performance.now()));
  document.body.dataset.ready = "yes";
}

start().catch(error => { byId("told").textContent = `The page could not begin: ${error.message}`; });
