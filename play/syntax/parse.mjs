// Reads a script: its text becomes the tree of a module as ESTree has it, with `start` and `end` of each node.

import { checkExports, moduleItem } from "./modules.mjs";
import { Reader } from "./reader.mjs";
import { markDirectives } from "./statements.mjs";
import { END } from "./tokens.mjs";

/** The tree of a script. It is read as a module: strictly, with `await` at its top.
 *
 * @throws SyntaxFault where the text is no module. */
export function parse(source) {
  const r = new Reader(source);
  try {
    const body = [];
    while (r.kind !== END) body.push(moduleItem(r));
    checkExports(r);
    markDirectives(r, body);
    return { type: "Program", start: 0, end: source.length, body, sourceType: "module" };
  } catch (error) {
    if (error instanceof RangeError) r.fail("The script is nested too deeply here.");
    throw error;
  }
}
