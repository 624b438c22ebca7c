// The host of node: node --expose-gc node.mjs [SCRIPT ..] plan.js < plans. It runs the scripts, the last of which must be
// the interpreter, and answers each line of the standard input, a plan, with a line.
import { readFileSync } from "node:fs";
import { runInThisContext } from "node:vm";

for (const filename of process.argv.slice(2)) runInThisContext(readFileSync(filename, "utf8"), { filename });
// Out of a callback that the engine calls.
process.on("uncaughtException", (e) => { if (!(e instanceof Plans.Refused)) throw e; });

const task = () => new Promise((go) => setImmediate(go));
const lines = readFileSync(0, "utf8").split("\n").filter((line) => line !== "");
await Plans.answer(lines, {
  collect: () => globalThis.gc(),
  task,
  wait: async () => { for (let turns = 0; turns < 4; turns += 1) await task(); },
  write: (line) => console.log(line),
  clone: structuredClone,
});
