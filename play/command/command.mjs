// What a command comes to: its status, and the texts for standard output and standard error. Statuses and texts are the
// program's, as docs/ERRORS.md has them.

import { readFileSync } from "node:fs";
import { explained } from "./explain.mjs";
import { leadingRows } from "./leading.mjs";
import { picturesOf } from "./pictures.mjs";
import { rowsOf } from "./rows.mjs";
import { planned } from "./script.mjs";
import { warningLines, warningsOf } from "../page/warnings.mjs";

const STANDARD_INPUT = "standard input";
const GOOD = 0, REFUSED = 1, MISTAKEN = 2, NO_MEMORY = 3, NOT_READ = 4;
const ERRORS = { [NO_MEMORY]: "out of memory\n", [NOT_READ]: "cannot read\n" };

/** Carries out a request, with the calls of clusterrun.mjs. */
export async function carriedOut({ command, file, options }, engine) {
  let bytes;
  try {
    bytes = readFileSync(file ?? 0);
  } catch {
    return { status: NOT_READ, error: ERRORS[NOT_READ] };
  }
  if (options.engine) {
    const { besideNode } = await import("./beside.mjs");
    return besideNode(file ?? STANDARD_INPUT, bytes.toString(), engine);
  }
  if (command !== "plan" && !/\.m?js$/.test(file ?? "")) return ofPlan(command, bytes, options, engine);
  const { plan, fault } = await planned(file ?? STANDARD_INPUT, bytes.toString(), engine);
  if (fault !== undefined) return command === "explain" ? { status: REFUSED, text: fault } : { status: REFUSED, error: fault };
  return command === "plan" ? { status: GOOD, text: plan } : ofPlan(command, Buffer.from(plan), { ...options, isScript: true }, engine);
}

function ofPlan(command, bytes, options, engine) {
  const { status, text, error } = COMMANDS[command](bytes, options, engine);
  if (status === GOOD) return { status, text, ...(options.isScript ? {} : TELLING[command]?.(text, bytes)) };
  if (status === MISTAKEN) return { status, error };
  if (status !== REFUSED) return { status, error: ERRORS[status] };
  return command === "explain" ? { status, text: explained(text, bytes) } : { status, error: `${text}\n` };
}

const COMMANDS = {
  run: (bytes, options, { run }) => run(bytes),
  check: (bytes, options, { check }) => check(bytes),
  explain: (bytes, options, { check }) => check(bytes),
  trace: (bytes, { all = false, json, dot, why, isScript = false }, { trace }) => {
    const { status, text } = trace(bytes, { all });
    if (status !== GOOD || json) return { status, text };
    if (why !== undefined) return whyOf(leadingRows(text, textOf(bytes), why, isScript));
    return { status, text: dot ? picturesOf(text, textOf(bytes)) : rowsOf(text) };
  },
};

/** The commands that tell the warnings of a plan without a fault. The plan of a script has none: its author did not write its
    commands. */
const TELLING = {
  check: (text, bytes) => ({ error: warningLines(warningsOf(bytes)) }),
  explain: (text, bytes) => ({ text: text + warningLines(warningsOf(bytes)) }),
};

const whyOf = ({ text, error }) => (error === undefined ? { status: GOOD, text } : { status: MISTAKEN, error });

/** A plan's bytes as text; a mark of the order of bytes is a part of it. */
const textOf = (bytes) => new TextDecoder("utf-8", { ignoreBOM: true }).decode(bytes);
