// The proved programs, compiled to WebAssembly, with what they are lent of the system. Each is made once, since every memory costs a browser room for
// gigabytes; before each run its memory is again as it was when it was made.

const STANDARD_INPUT = 0, STANDARD_OUTPUT = 1, NO_FILE = -1, FIRST_FILE = 3;
// The errors of the system that a program is told of: there is no such file, and a file could not be read.
const NOT_THERE = 2, NOT_READ = 5;

export function bytesOfBase64(text) {
  return Uint8Array.from(atob(text.trim()), character => character.charCodeAt(0));
}

// What a program reads and writes in one run: its standard input, and files that its arguments "1" and "2" name.
class Lent {
  constructor() {
    this.memory = null;
    this.begin([]);
  }

  begin(sources) {
    this.sources = sources.map(bytes => ({ bytes, at: 0 }));
    this.opened = { [STANDARD_INPUT]: this.sources[0] };
    this.parts = [];
    this.error = 0;
  }

  failed(error) {
    this.error = error;
    return -1n;
  }

  read(descriptor, to, size) {
    const source = this.opened[descriptor];
    if (!source) return this.failed(NOT_READ);
    const part = source.bytes.subarray(source.at, source.at + Number(size));
    new Uint8Array(this.memory.buffer).set(part, to);
    source.at += part.length;
    return BigInt(part.length);
  }

  write(descriptor, from, size) {
    if (descriptor === STANDARD_OUTPUT) this.parts.push(new Uint8Array(this.memory.buffer).slice(from, from + Number(size)));
    return size;
  }

  rattle_arg(argument, to, size) {
    if (argument < 1n || argument >= BigInt(this.sources.length) || size < 1n) return this.failed(NOT_THERE);
    new Uint8Array(this.memory.buffer)[to] = String(argument).charCodeAt(0);
    return 1n;
  }

  open(path) {
    const file = new Uint8Array(this.memory.buffer)[path] - "0".charCodeAt(0);
    if (!(file >= 1 && file < this.sources.length)) {
      this.failed(NOT_THERE);
      return NO_FILE;
    }
    this.opened[FIRST_FILE + file] = this.sources[file];
    return FIRST_FILE + file;
  }

  close() {
    return 0;
  }

  rattle_errno() {
    return this.error;
  }

  rattle_set_errno(error) {
    this.error = error;
  }

  // The system's words for an error, for standard error, which nobody reads here.
  __xpg_strerror_r(error, to) {
    new Uint8Array(this.memory.buffer)[to] = 0;
    return 0;
  }

  __sysv_signal() {
    return 0n;
  }

  printed() {
    return this.parts.map(part => new TextDecoder().decode(part)).join("");
  }
}

const CALLS = ["read", "write", "open", "close", "rattle_arg", "rattle_errno", "rattle_set_errno", "__xpg_strerror_r", "__sysv_signal"];

// A function from the bytes of an input, and of files, to what the program prints.
export async function programOf(bytes) {
  const lent = new Lent(), env = Object.fromEntries(CALLS.map(call => [call, (...given) => lent[call](...given)]));
  const { instance } = await WebAssembly.instantiate(bytes, { env });
  const { memory, main } = instance.exports, fresh = new Uint8Array(memory.buffer).slice();
  lent.memory = memory;
  return (...sources) => {
    new Uint8Array(memory.buffer).set(fresh);
    lent.begin(sources);
    main();
    return lent.printed();
  };
}
