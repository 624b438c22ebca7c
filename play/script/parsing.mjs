// The one place that names the reader of JavaScript: a script's text to its tree, in the shapes of ESTree.

import { SyntaxFault } from "../syntax/fault.mjs";
import { parse } from "../syntax/parse.mjs";
import { ScriptFault } from "./faults.mjs";

/** The tree of a script, which is read as a module: strict, with `await` at its top. */
export function treeOf(source) {
  try {
    return parse(source);
  } catch (error) {
    if (!(error instanceof SyntaxFault)) throw error;
    throw new ScriptFault(error.message, error);
  }
}
