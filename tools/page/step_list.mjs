// The steps of a run as a list of which only the part in sight is written, so that ten thousand of them scroll as ten do.
import { element, escaped } from "./markup.mjs";

const ROW = 22, BEYOND = 8;

const shortened = answer => answer.split("\n").filter(line => line && !/^(column|occupied)=/.test(line)).join(" ");

function row(frame, k, at) {
  const kind = `step${frame.dispatched ? " dispatched" : ""}${frame.refused ? " refused" : ""}${k === at ? " now" : ""}`;
  const number = frame.dispatched || frame.line < 0 ? "" : String(frame.line + 1);
  return element("div", { class: kind, style: `top:${k * ROW}px`, "data-frame": k, role: "option", "aria-selected": String(k === at) },
    element("span", { class: "line-number" }, number), element("span", { class: "line-text" }, escaped(frame.text)), element("span", { class: "line-answer" }, escaped(shortened(frame.answer))));
}

// Writes the rows in sight of the box.
export function writeSteps(box, frames, at) {
  const first = Math.max(0, Math.floor(box.scrollTop / ROW) - BEYOND), last = Math.min(frames.length, Math.ceil((box.scrollTop + box.clientHeight) / ROW) + BEYOND);
  const rows = [];
  for (let k = first; k < last; k++) rows.push(row(frames[k], k, at));
  box.innerHTML = element("div", { style: `height:${frames.length * ROW}px;position:relative` }, ...rows);
}

// Scrolls the box so that a row is in sight.
export function showRow(box, at) {
  if (at * ROW < box.scrollTop) box.scrollTop = at * ROW;
  if ((at + 1) * ROW > box.scrollTop + box.clientHeight) box.scrollTop = (at + 1) * ROW - box.clientHeight;
}
