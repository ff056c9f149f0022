// What a person does to a bank: a script is typed, pasted, opened, chosen or clicked together, a step at a time, and saved.
import { scriptUpTo } from "./asking.mjs";
import { lockersWall } from "./bank_tables.mjs";
import { draw, go, pause, play, show, view } from "./bank_view.mjs";
import { doorsOf, NO_DOORS, occupiedDoors } from "./columns.mjs";
import { characters, encode, runScript } from "./script.mjs";
import { writeSteps } from "./step_list.mjs";
import { byId } from "./markup.mjs";

const script = { bytes: new Uint8Array(), undone: [], doors: NO_DOORS };

// Runs the bytes of a script and looks at a frame of it, which may be counted from the end.
function runBytes(bytes, at) {
  script.bytes = bytes;
  const run = runScript(view.program, bytes);
  show(run, at < 0 ? run.frames.length + at : at);
  byId("undo").disabled = !script.undone.length;
}

export function runText(text, at = 0) {
  byId("script").value = text;
  runBytes(encode(text), at);
}

// A script that replaces another can be taken back.
function replace(text, at, example = "") {
  script.undone.push({ bytes: script.bytes, at: view.at });
  byId("example").value = example;
  runText(text, at);
}

// A clicked step goes on from the frame that is looked at: what the script has after it is cut.
function perform(line) {
  const { run, at } = view;
  if (!run || !run.frames.length) return;
  replace(`${scriptUpTo(run, at)}${line}\n`, -2);
}

function undo() {
  const last = script.undone.pop();
  if (!last) return;
  byId("script").value = characters(last.bytes);
  runBytes(last.bytes, last.at);
}

async function open(file) {
  const bytes = new Uint8Array(await file.arrayBuffer());
  script.undone.push({ bytes: script.bytes, at: view.at });
  byId("script").value = characters(bytes);
  runBytes(bytes, 0);
}

export function saveText(name, text) {
  const link = document.createElement("a");
  link.href = URL.createObjectURL(new Blob([text], { type: "text/plain" }));
  link.download = name;
  link.click();
  setTimeout(() => URL.revokeObjectURL(link.href), 1000);
}

// ---- the order

function writeWall() {
  byId("order-wall").innerHTML = lockersWall(script.doors, true);
  byId("order-line").textContent = `order=${script.doors}`;
}

function toggleDoor(door) {
  const occupied = new Set(occupiedDoors(script.doors));
  if (!occupied.delete(door)) occupied.add(door);
  script.doors = doorsOf([...occupied]);
  writeWall();
  byId("order-wall").querySelector(`[data-door="${door}"]`).focus();
}

function connectOrder() {
  byId("order").onclick = () => { writeWall(); byId("order-dialog").showModal(); };
  byId("order-wall").onclick = event => { if (event.target.dataset.door) toggleDoor(Number(event.target.dataset.door)); };
  byId("order-none").onclick = () => { script.doors = NO_DOORS; writeWall(); };
  byId("order-cancel").onclick = () => byId("order-dialog").close();
  byId("order-give").onclick = () => { byId("order-dialog").close(); perform(`order=${script.doors}`); };
}

// ---- selection

function choose(column, several) {
  if (!several) view.selected = new Set([column]);
  else if (!view.selected.delete(column)) view.selected.add(column);
  draw();
}

function clicked(event) {
  const part = event.target.closest("[data-line], [data-mark], [data-packet], [data-column]");
  if (!part) return;
  const { line, mark, packet, column } = part.dataset;
  if (line !== undefined) perform(line);
  else if (mark !== undefined) choose(Number(mark), true);
  else if (packet !== undefined) { view.packet = view.run.frames[view.at].bank.network[Number(packet)]; draw(); }
  else choose(Number(column), event.shiftKey || event.ctrlKey || event.metaKey);
}

// ---- the keyboard

const KEYS = { ArrowRight: () => go(view.at + 1), ArrowLeft: () => go(view.at - 1), Home: () => go(0), End: () => go(view.run.frames.length - 1), p: play };

function pressed(event) {
  if (byId("bank-part").hidden || !view.run || !view.run.frames.length || event.target.closest("textarea, input, select, dialog") || event.altKey || event.ctrlKey || event.metaKey) return;
  const part = event.target.closest("svg [data-column], svg [data-packet]");
  if (part && (event.key === "Enter" || event.key === " ")) part.dispatchEvent(new MouseEvent("click", { bubbles: true, shiftKey: event.shiftKey }));
  else if (KEYS[event.key]) KEYS[event.key]();
  else return;
  event.preventDefault();
}

function connectScript(examples) {
  byId("example").append(new Option("Choose an example", ""), ...Object.keys(examples).map(name => new Option(name)));
  byId("example").onchange = () => { if (examples[byId("example").value]) replace(examples[byId("example").value], 0, byId("example").value); };
  byId("run-script").onclick = () => replace(byId("script").value, 0);
  byId("open").onclick = () => byId("file").click();
  byId("file").onchange = () => { if (byId("file").files.length) open(byId("file").files[0]); byId("file").value = ""; };
  byId("save").onclick = () => saveText("bank.script", new Blob([script.bytes]));
  byId("script-part").ondragover = event => event.preventDefault();
  byId("script-part").ondrop = event => { event.preventDefault(); if (event.dataTransfer.files.length) open(event.dataTransfer.files[0]); };
}

// Connects the buttons of the bank's part with what they do.
export function connectBank(examples) {
  connectScript(examples);
  connectOrder();
  const jumps = { first: () => go(0), back: () => go(view.at - 1), step: () => go(view.at + 1), last: () => go(view.run.frames.length - 1) };
  for (const [id, jump] of Object.entries(jumps)) byId(id).onclick = () => { if (view.run.frames.length) { pause(); jump(); } };
  byId("play").onclick = play;
  byId("speed").onchange = () => { if (view.timer) { pause(); play(); } };
  byId("slider").oninput = () => { pause(); go(Number(byId("slider").value)); };
  byId("rest").onclick = () => perform("run=9999");
  byId("turn").onclick = () => perform("run=1");
  byId("undo").onclick = undo;
  for (const id of ["picture", "columns", "packets", "actions"]) byId(id).onclick = clicked;
  byId("steps").onclick = event => { const row = event.target.closest("[data-frame]"); if (row) { pause(); go(Number(row.dataset.frame)); } };
  byId("steps").onscroll = () => { if (view.run) writeSteps(byId("steps"), view.run.frames, view.at); };
  document.addEventListener("keydown", pressed);
  addEventListener("resize", draw);
}
