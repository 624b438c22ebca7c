// The first mistake of a plan in words, and the warnings of one without a mistake, for those who use the package. They are twins in
// JavaScript of what the program has: see docs/PAGE.md.

import { check } from "./clusterrun.mjs";
import { explained } from "./command/explain.mjs";
import { warningLines, warningsOf } from "./page/warnings.mjs";

export function explain(plan, options) {
  const { status, text } = check(plan, options);
  if (status === 1) return { status, text: explained(text, written(plan)) };
  return { status, text: status === 0 ? text + warningLines(warningsOf(written(plan))) : text };
}

export function warnings(plan, options) {
  const { status, text } = check(plan, options);
  if (status !== 0) return { status, text, warnings: [] };
  const found = warningsOf(written(plan));
  return { status, text: warningLines(found), warnings: found.map(({ path, ...warning }) => warning) };
}

/** A plan as text or bytes. `check` took it, so an object that is neither is a plain one. */
function written(plan) {
  if (typeof plan === "string") return plan;
  if (plan instanceof ArrayBuffer) return new Uint8Array(plan);
  return ArrayBuffer.isView(plan) ? new Uint8Array(plan.buffer, plan.byteOffset, plan.byteLength) : JSON.stringify(plan);
}
