// What is shown of a run: the frame at which it is looked at, with its picture, sentence, tables and the closing list of the selected column.
import { askedAt } from "./asking.mjs";
import { bankPicture } from "./bank_picture.mjs";
import { columnSteps, columnsTable, lockersWall, packetsTable } from "./bank_tables.mjs";
import { doorsOf } from "./columns.mjs";
import { atRest } from "./dispatcher.mjs";
import { lineFrames, numbers } from "./script.mjs";
import { showRow, writeSteps } from "./step_list.mjs";
import { byId, element, escaped } from "./markup.mjs";
import { capital, columnsNamed, counted, lineNamed, sentence } from "./telling.mjs";

export const view = { program: null, run: null, at: 0, selected: new Set([0]), packet: null, timer: null };

const frameNow = () => view.run.frames[view.at];

function tellFrame(frame, fits) {
  const line = lineNamed(frame), rests = fits && atRest(frame.bank) ? " The bank is at rest." : "";
  byId("told").innerHTML = element("p", { class: frame.refused ? "refused" : "" }, escaped(fits ? sentence(frame) + rests : ""))
    + element("p", { class: "faint" }, escaped(`${capital(line || "the end")}${frame.text === "table" || line === "" ? "" : `: ${frame.text}`}${frame.answer ? ` prints ${frame.answer.trim().split("\n").join(", ")}` : ""}`));
  byId("told").className = rests ? "rests" : "";
}

// Where the program's lists at this frame are not what the page draws, that is shown in place of the picture.
function tellLists(asked) {
  const text = asked === null ? "The script is too long to ask the proved program at this step: the picture is the page's alone." : asked.fits ? ""
    : "The proved program answers at this step otherwise than the page expects. The picture is not drawn; the closing list is the program's.";
  byId("difference").textContent = text || differenceTold(view.run);
  byId("difference").hidden = !byId("difference").textContent;
}

// The first difference between the program's answers and the page's, if there is one.
function differenceTold(run) {
  if (!run.unfit) return "";
  const where = run.unfit.line < 0 ? "At the end" : `At line ${run.unfit.line + 1}, ${run.unfit.text},`;
  return `${where} the proved program printed ${JSON.stringify(run.unfit.printed)}, and the page expected ${JSON.stringify(run.unfit.expected)}. The program is right; nothing is drawn from there on.`;
}

// The closing list of the selected column as the program prints it, with the wall of its doors.
function writeList(asked) {
  const [i] = view.selected;
  if (view.selected.size !== 1 || !asked) {
    byId("list").innerHTML = "<p>Select one column to see its closing list.</p>";
    return;
  }
  const answer = asked.lists[i].trim(), doors = (/doors=([0-9,]+)$/.exec(answer) || ["", ""])[1];
  const told = answer.startsWith("refused") ? `Column ${i} is halted: ${answer}. Its doors are not to be had from it.` : "";
  byId("list").innerHTML = element("pre", {}, escaped(answer)) + (told ? element("p", {}, escaped(told)) : lockersWall(doorsOf(doors ? numbers(doors) : []), false));
}

function stepButton([label, line]) {
  const [frame] = lineFrames(frameNow().bank, line, 0), why = frame.refused ? `would be refused with ${frame.refused.refused}: ${frame.refused.why}` : line;
  return element("button", { "data-line": line, class: frame.refused ? "would-refuse" : "", title: why }, escaped(label));
}

// The steps that can be clicked for what is selected.
function writeActions() {
  const { bank } = frameNow(), chosen = [...view.selected].filter(i => i < bank.columns.length).sort((one, other) => one - other);
  const place = bank.network.indexOf(view.packet);
  const packet = place < 0 ? "" : stepButton(["Take the selected packet", `take=${place}`]);
  if (!chosen.length) byId("actions").innerHTML = `<span>Select a column.</span>${packet}`;
  else if (chosen.length > 1) byId("actions").innerHTML = `<b>${capital(columnsNamed(chosen))}</b>${stepButton(["Halt together, as a strip", `halt=${chosen.join(",")}`])}${packet}`;
  else byId("actions").innerHTML = `<b>Column ${chosen[0]}</b>${columnSteps(bank, chosen[0]).map(stepButton).join("")}${packet}`;
}

// The focused column or packet has the focus again after the picture is written anew.
function keepingFocus(write) {
  const focused = document.activeElement, box = focused && focused.closest("#picture, #columns, #packets, #actions");
  const key = box && ["data-column", "data-packet", "data-mark", "data-line"].find(name => focused.hasAttribute(name));
  const value = key && focused.getAttribute(key);
  write();
  const again = key && box.querySelector(`[${key}="${CSS.escape(value)}"]`);
  if (again) again.focus({ preventScroll: true });
}

// Where the picture is wider than its room, the acting column comes into sight.
function showActing() {
  const box = byId("picture"), acting = box.querySelector(".column.acting .box");
  if (!acting || box.scrollWidth <= box.clientWidth) return;
  const left = Number(acting.getAttribute("x")), right = left + Number(acting.getAttribute("width"));
  if (left < box.scrollLeft || right > box.scrollLeft + box.clientWidth) box.scrollLeft = (left + right - box.clientWidth) / 2;
}

function writeFrame() {
  const frame = frameNow(), { bank } = frame, asked = askedAt(view.program, view.run, view.at), fits = !asked || asked.fits;
  tellFrame(frame, fits);
  tellLists(asked);
  byId("picture").innerHTML = fits ? bankPicture(frame, byId("picture").clientWidth, view) : "";
  showActing();
  byId("columns").innerHTML = fits ? columnsTable(bank, view) : "";
  byId("packets").innerHTML = fits ? packetsTable(bank, view) : "";
  byId("packets-title").textContent = `${capital(counted(bank.network.length, "packet"))} under way`;
  writeList(asked);
  writeActions();
}

// Shows the run at the frame at which it is looked at.
export function draw() {
  if (!view.run || !view.run.frames.length) return;
  keepingFocus(writeFrame);
  byId("slider").value = view.at;
  byId("position").textContent = `${view.at} of ${view.run.frames.length - 1}`;
  showRow(byId("steps"), view.at);
  writeSteps(byId("steps"), view.run.frames, view.at);
}

// Looks at a frame, or at the nearest that there is.
export function go(at) {
  if (!view.run.frames.length) return;
  view.at = Math.max(0, Math.min(view.run.frames.length - 1, at));
  const { bank } = frameNow();
  if (!bank.network.includes(view.packet)) view.packet = null;
  draw();
}

function showNothing(text) {
  for (const id of ["picture", "columns", "packets", "list", "actions", "steps"]) byId(id).innerHTML = "";
  byId("position").textContent = "";
  byId("told").innerHTML = element("p", { class: "refused" }, escaped(text));
  byId("told").className = "";
  byId("difference").textContent = differenceTold(view.run);
  byId("difference").hidden = !view.run.unfit;
}

// Shows a run, at a frame of it.
export function show(run, at) {
  pause();
  view.run = run;
  view.selected = new Set([...view.selected].filter(i => run.table && i < run.table.count));
  byId("printed").textContent = run.printed;
  byId("slider").max = Math.max(0, run.frames.length - 1);
  byId("bank-part").classList.toggle("empty", !run.frames.length);
  if (!run.frames.length) {
    showNothing(run.refused ? `The table is refused with ${run.refused.refused}: ${run.refused.why}.` : "Nothing can be drawn.");
    return;
  }
  if (!view.selected.size) view.selected.add(run.table.root);
  go(at);
}

// ---- play

const SPEEDS = { "half": 1600, "one": 800, "two": 400, "eight": 100 };

export function pause() {
  clearInterval(view.timer);
  view.timer = null;
  byId("play").textContent = "▶ Play";
  byId("play").setAttribute("aria-pressed", "false");
}

export function play() {
  if (view.timer || !view.run.frames.length) {
    pause();
    return;
  }
  if (view.at === view.run.frames.length - 1) go(0);
  byId("play").textContent = "❚❚ Pause";
  byId("play").setAttribute("aria-pressed", "true");
  view.timer = setInterval(() => view.at < view.run.frames.length - 1 ? go(view.at + 1) : pause(), SPEEDS[byId("speed").value]);
}
