// node replay.js LIBRARY.wasm CALLS.json RECORDING: makes each recorded call (recording.py) and compares the answer and every byte of the room in which
// all that is lent is between guards.
"use strict";
const fs = require("fs");
const PAGE = 65536;
const [library, table, recording] = process.argv.slice(2);
const core = new WebAssembly.Instance(new WebAssembly.Module(fs.readFileSync(library)), {}).exports;
const { ROOM, GUARD, GUARD_BYTE, SHOWN, functions } = JSON.parse(fs.readFileSync(table, "utf8")), bytes = fs.readFileSync(recording);
const base = core.__heap_base.value;
core.memory.grow(Math.ceil(ROOM / PAGE));
let at = 0;
const number = () => (at += 8, bytes.readBigUInt64LE(at - 8));
const part = size => (at += size, bytes.subarray(at - size, at));

// The words of a call, and where what may be written is.
function lend(fn, count, room) {
  const words = [], writable = [];
  let free = GUARD;
  for (let i = 0; i < count; i++) {
    const kind = String.fromCharCode(bytes[at++]), value = number();
    if (kind === "n") {
      words.push(fn.wide[i] ? BigInt.asIntN(64, value) : Number(BigInt.asIntN(32, value)));
      continue;
    }
    const size = Number(value);
    room.set(part(size), free);
    words.push(base + free, value);
    if (kind === "w") writable.push([free, size]);
    free += size + 2 * GUARD;
  }
  return { words, writable };
}

function isSame(fn, count) {
  const room = new Uint8Array(core.memory.buffer, base, ROOM);
  room.fill(GUARD_BYTE);
  const { words, writable } = lend(fn, count, room), expected = room.slice();
  const answer = BigInt.asUintN(64, core[fn.name](...words)), wanted = number();
  for (const [from, size] of writable) expected.set(part(size), from);
  return answer === wanted && Buffer.compare(new Uint8Array(core.memory.buffer, base, ROOM), expected) === 0;
}

let calls = 0, differ = 0;
while (at < bytes.length) {
  const fn = functions[bytes[at]], count = bytes[at + 1];
  at += 2, calls++;
  if (!isSame(fn, count) && differ++ < SHOWN) console.log(`call ${calls} differs: ${fn.name}`);
}
console.log(`${calls} calls, ${differ} differ`);
process.exit(differ ? 1 : 0);
