// node tools/machines/run.mjs PROGRAM.wasm [FILE...]: what a program prints, with standard input where no file is named. It is lent what the page lends it.
import fs from "node:fs";
import { programOf } from "../page/programs.mjs";

const USAGE = "usage: node tools/machines/run.mjs PROGRAM.wasm [FILE...]";
const [path, ...files] = process.argv.slice(2);
if (path === "-h" || path === "--help") {
  console.log(USAGE);
} else if (path === undefined) {
  console.error(USAGE);
  process.exitCode = 2;
} else {
  const run = await programOf(fs.readFileSync(path));
  process.stdout.write(run(files.length ? new Uint8Array() : fs.readFileSync(0), ...files.map(file => fs.readFileSync(file))));
}
