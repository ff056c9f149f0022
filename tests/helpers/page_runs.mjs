// Runs the sources of the page in node. Standard input is JSON: the folder of the sources, the programs as base64, scripts as base64, and requests for
// fastest trees, and at how many frames of a script the program is asked at most; standard output has for each script what was printed, how many frames fit, what differs, and the journals at its end.
import fs from "node:fs";
import { pathToFileURL } from "node:url";

const asked = JSON.parse(fs.readFileSync(0, "utf8")), source = name => import(pathToFileURL(`${asked.sources}/${name}.mjs`).href);
const { bytesOfBase64, programOf } = await source("programs"), { encode, LIMIT, runScript } = await source("script"), { askedAt, scriptUpTo } = await source("asking");
const { sentence } = await source("telling"), { journalOf } = await source("journal"), { fastestTree } = await source("fastest_tree");

const program = await programOf(bytesOfBase64(asked.programs.lockers));

// Whether the script that leads to a frame ends with its bank; one that grew past the limit leads nowhere.
function leadsTo(frame, script) {
  if (script.length > LIMIT) return true;
  const { frames } = runScript(program, script);
  return JSON.stringify(frame.bank) === JSON.stringify(frames[frames.length - 1].bank);
}

function told(bytes) {
  const began = performance.now(), run = runScript(program, bytes), milliseconds = performance.now() - began, { frames } = run;
  const step = Math.max(1, Math.ceil(frames.length / asked.looks)), looked = frames.map((_, k) => k).filter(k => k % step === 0);
  const unanswered = looked.filter(k => { const answer = askedAt(program, run, k); return answer && !answer.fits; });
  const again = looked.filter(k => !leadsTo(frames[k], encode(scriptUpTo(run, k))));
  const journals = run.table && !run.unfit ? run.table.up.map((_, i) => journalOf(run, frames.length - 1, i)) : [];
  return { printed: run.printed, frames: frames.length, unfit: run.unfit, refused: run.refused, unanswered: unanswered.length, again: again.length, journals, sentences: frames.map(sentence), milliseconds };
}

const scripts = asked.scripts.map(text => told(bytesOfBase64(text)));
process.stdout.write(JSON.stringify({ scripts, trees: (asked.requests || []).map(request => fastestTree(...request)) }));
