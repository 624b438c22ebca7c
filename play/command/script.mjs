// A script in JavaScript on the command line: its plan, or its fault with the line and a mark.

import { lineAndColumn, pointedLine } from "../syntax/fault.mjs";

/** What becomes of a script of this name: its `plan`, as text, or a `fault` to show. The interpreter is read only where there is
    a script. */
export async function planned(name, source, engine) {
  const { planOf } = await import("../script/plan_of.mjs");
  try {
    return { plan: planOf(source, { engine }).text };
  } catch (error) {
    if (error.start === undefined) throw error;
    return { fault: faultText(name, source, error) };
  }
}

export function faultText(name, source, { message, start, end }) {
  const { line, column } = lineAndColumn(source, start);
  return `${name}:${line}:${column}: ${message}\n${pointedLine(source, start, end)}\n`;
}
