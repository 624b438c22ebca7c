// Asks the kept module for plans: each comes on standard input after its length in four bytes, and is answered by a line of
// JSON with what `run`, `check` and `trace` give, the letters at the place of its fault, and what `explain` says of it: of a plan
// without a fault the lines of its warnings.
//
// Usage: node kept_page.mjs CLUSTERRUN_MJS

import { pathToFileURL } from "node:url";
import { explained } from "../../play/command/explain.mjs";
import { mistakeOf } from "../../play/page/mistakes/mistake.mjs";
import { warningLines, warningsOf } from "../../play/page/warnings.mjs";
import { read, write } from "./page_pipe.mjs";

const { run, check, trace } = await import(pathToFileURL(process.argv[2]));
const decoder = new TextDecoder("utf-8", { ignoreBOM: true });

/** The letters at the place of a fault. */
function marked(fault, plan) {
  const { start, end } = mistakeOf(fault, plan).place;
  return plan.slice(start, end);
}

for (let head = read(4); head !== null; head = read(4)) {
  const plan = read(head.readUInt32LE(0));
  const answer = run(plan), isFaulty = answer.status === 1;
  const traced = [trace(plan), trace(plan, { all: true })];
  const line = { ran: answer, checked: check(plan), traced };
  if (isFaulty) Object.assign(line, { marked: marked(answer.text, decoder.decode(plan)), explained: explained(answer.text, plan) });
  if (answer.status === 0) line.explained = `ok\n${warningLines(warningsOf(plan))}`;
  write(`${JSON.stringify(line)}\n`);
}
