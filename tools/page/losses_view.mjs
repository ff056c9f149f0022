// Losses: for two trees side by side, what the program counts after each number of steps, as a chart and a table.
import { fastestTree } from "./fastest_tree.mjs";
import { treePicture } from "./fastest_view.mjs";
import { encode, readTable } from "./script.mjs";
import { byId, element, escaped, words } from "./markup.mjs";

const CHART = { width: 560, height: 200, left: 34, bottom: 34 }, COLUMNS = 8, LEVEL = 62;
const MEANINGS = { 1: "the table has another form", 2: "a bank has 1 to 16 columns", 3: "the parents, the root or the sequence make no tree", 13: "after= is a count of 0 to 999", 23: "losses are counted for up to 8 columns, and where the root is watched" };
const SHAPES = { chain: count => Array.from({ length: count }, (_, i) => Math.max(0, i - 1)), bush: count => Array(count).fill(0), "fastest tree, delay 2 and gap 1": count => fastestTree(count, 2, 1).up };

const state = { programs: null, sides: [], after: 4 };

const tableText = up => `columns=${up.length}\nroot=0\nup=${up.join(",")}\n`;
const numberAfter = (text, key) => Number((new RegExp(`^${key}=([0-9]+)$`, "m").exec(text) || [])[1]);

// What the program counts after a number of steps, or its refusal.
function countsAfter(table, steps) {
  const printed = state.programs.losses(encode(`${table}after=${steps}\n`));
  return { refused: numberAfter(printed, "refused"), kept: numberAfter(printed, "kept"), lost: numberAfter(printed, "lost"), none: numberAfter(printed, "none") };
}

// How many steps an order takes to rest, by the script program.
const stepsToRest = table => numberAfter(state.programs.lockers(encode(`${table}order=0000000000000000\nrun=9999\n`)), "steps");

// ---- the chart

function bar(side, row, steps, width) {
  const { height, left } = CHART, whole = row.kept + row.lost + row.none, x = left + steps * width, parts = [];
  let below = height;
  for (const kind of ["lost", "kept", "none"]) {
    const size = row[kind] / whole * height;
    below -= size;
    if (row[kind]) parts.push(element("rect", { x, y: below, width: width * 0.86, height: Math.max(size, 1.5), class: `bar-${kind}` }));
  }
  if (row.lost && width > 14) parts.push(words(x + width * 0.43, height - row.lost / whole * height - 3, String(row.lost), "bar-number"));
  if (steps % (side.rows.length > 60 ? 10 : side.rows.length > 24 ? 4 : 2) === 0) parts.push(words(x + width * 0.43, height + 14, String(steps), "axis"));
  if (steps === Math.min(state.after, side.rest)) parts.push(element("rect", { x: x - 1, y: 0, width: width * 0.86 + 2, height, class: "bar-now" }));
  return element("g", { "data-after": steps }, element("title", {}, `after ${steps} steps: kept ${row.kept}, lost ${row.lost}, none ${row.none}`), element("rect", { x, y: 0, width, height, fill: "transparent" }), ...parts);
}

function chart(side, room) {
  const { height, left, bottom } = CHART, width = Math.min(CHART.width, room), step = (width - left - 4) / (side.rest + 1), whole = side.rows.length ? side.rows[0].kept + side.rows[0].lost + side.rows[0].none : 0;
  const bars = side.rows.map((row, steps) => bar(side, row, steps, step));
  const axis = [0, 0.5, 1].map(share => words(left - 4, height * (1 - share) + (share === 1 ? 10 : 4), String(whole * share), "axis", { "text-anchor": "end" }));
  return element("svg", { xmlns: "http://www.w3.org/2000/svg", viewBox: `0 0 ${width} ${height + bottom}`, width: "100%", role: "img", "aria-label": "Sets that keep and lose the order, by the steps before the halt" },
    ...bars, ...axis, words(width - 4, height + 30, "steps before the halt", "axis", { "text-anchor": "end" }));
}

function rowsTable(side) {
  const rows = side.rows.map((row, steps) => `<tr class="${steps === state.after ? "chosen" : ""}" data-after="${steps}"><td>${steps}</td><td>${row.kept}</td><td>${row.lost}</td><td>${row.none}</td></tr>`);
  return `<div class="scroll"><table><thead><tr><th>After</th><th>Kept</th><th>Lost</th><th>None</th></tr></thead><tbody>${rows.join("")}</tbody></table></div>`;
}

// ---- a side

function told(side) {
  if (side.refused) return `Refused with ${side.refused}: ${MEANINGS[side.refused] || ""}.`;
  if (side.rows.length <= side.rest) return `Counting: ${side.rows.length} of ${side.rest + 1} step counts.`;
  const safe = side.rows.findIndex(row => row.lost === 0), row = side.rows[Math.min(state.after, side.rest)];
  return `After ${Math.min(state.after, side.rest)} steps: kept ${row.kept}, lost ${row.lost}, none ${row.none}. No set loses the order from step ${safe} on; rest after ${side.rest}.`;
}

function drawSide(side, k) {
  const part = byId(`losses-answer-${k}`), read = readTable(side.table);
  part.innerHTML = `<p class="${side.refused ? "refused" : ""}" aria-live="polite">${escaped(told(side))}</p>` + (side.refused ? "" :
    chart(side, part.clientWidth) + '<p class="legend"><span><i class="square kept"></i> kept</span><span><i class="square lost"></i> lost</span><span><i class="square none"></i> none</span></p>'
    + treePicture(read.table, part.clientWidth, i => i === read.table.root ? "" : `under ${read.table.up[i]}`, () => "", LEVEL) + rowsTable(side));
}

// Counts for one step count after the other, so that clicks are answered meanwhile; a newer table ends it.
function countOn(side, k, began) {
  const until = performance.now() + 40;
  while (side.rows.length <= side.rest && performance.now() < until) side.rows.push(countsAfter(side.table, side.rows.length));
  drawSide(side, k);
  if (side.began === began && side.rows.length <= side.rest) setTimeout(() => { if (side.began === began) countOn(side, k, began); }, 0);
}

function startSide(k, table) {
  const side = state.sides[k] = { table, rows: [], rest: 0, refused: 0, began: Symbol("count") };
  byId(`losses-table-${k}`).value = table;
  side.refused = countsAfter(table, 0).refused;
  side.rest = side.refused ? 0 : stepsToRest(table);
  const most = Math.max(...state.sides.map(other => other ? other.rest : 0));
  byId("losses-after").max = most;
  if (side.refused) drawSide(side, k);
  else countOn(side, k, side.began);
}

function sideForm(k) {
  const shapes = Object.keys(SHAPES).map(name => `<option>${name}</option>`).join("");
  const counts = Array.from({ length: COLUMNS }, (_, i) => `<option${i === COLUMNS - 1 ? " selected" : ""}>${i + 1}</option>`).join("");
  return `<section class="side card"><div class="row"><select id="losses-shape-${k}" aria-label="Tree ${k + 1}">${shapes}</select><label>of <select id="losses-count-${k}">${counts}</select> columns</label></div>`
    + `<textarea id="losses-table-${k}" rows="4" aria-label="Table ${k + 1}" spellcheck="false"></textarea><div class="row"><button id="losses-run-${k}" class="main">Count</button></div><div id="losses-answer-${k}"></div></section>`;
}

function setAfter(steps) {
  state.after = steps;
  byId("losses-after").value = steps;
  byId("losses-steps").textContent = String(steps);
  state.sides.forEach(drawSide);
}

export function startLosses() {
  if (!state.sides.length) [0, 1].forEach(k => byId(`losses-shape-${k}`).onchange());
}

export function connectLosses(programs) {
  state.programs = programs;
  byId("losses-sides").innerHTML = sideForm(0) + sideForm(1);
  byId("losses-shape-1").selectedIndex = 2;
  for (const k of [0, 1]) {
    const choose = () => startSide(k, tableText(SHAPES[byId(`losses-shape-${k}`).value](Number(byId(`losses-count-${k}`).value))));
    byId(`losses-shape-${k}`).onchange = byId(`losses-count-${k}`).onchange = choose;
    byId(`losses-run-${k}`).onclick = () => startSide(k, byId(`losses-table-${k}`).value);
  }
  byId("losses-after").oninput = () => setAfter(Number(byId("losses-after").value));
  byId("losses-sides").addEventListener("click", event => { const part = event.target.closest("[data-after]"); if (part) setAfter(Number(part.dataset.after)); });
  byId("losses-steps").textContent = String(state.after);
}
