// Scripts in JavaScript, for those who use the package: a script's plan, and what a trace of it says of the script.
// See docs/SCRIPTS.md.

import * as engine from "./clusterrun.mjs";
import { linesOf, placed } from "./script/lines.mjs";
import { ScriptFault, planOf as planBy } from "./script/plan_of.mjs";

export { ScriptFault, linesOf, placed };

export function planOf(source) {
  return planBy(source, { engine });
}
