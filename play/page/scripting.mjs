// A script as the page shows it: its plan, the trace with the places in the script, its statements, and what it printed. It is
// made in the engine's thread.

import { linesOf } from "../script/lines.mjs";
import { treeOf } from "../script/parsing.mjs";
import { ScriptFault, planOf } from "../script/plan_of.mjs";
import { judged } from "./judging.mjs";
import { statementsOf } from "./statements.mjs";

/** What a script comes to: with status 0 its plan and the rest, and with status 1 its fault, with its place. */
export function scriptRun(source, calls, options) {
  try {
    const engine = { trace: (plan) => calls.trace(plan, { ...options, all: true }) };
    const { text, places, uses, trace } = planOf(source, { engine });
    const statements = statementsOf(treeOf(source));
    const { lines, hasChosen } = judged(linesOf(trace, places), trace, { places, uses, statements });
    return { status: 0, text, places, trace, lines, hasChosen, statements: statements.map(({ node, ...rest }) => rest) };
  } catch (error) {
    if (!(error instanceof ScriptFault)) throw error;
    return { status: 1, fault: { message: error.message, start: error.start, end: error.end } };
  }
}
