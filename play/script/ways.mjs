// How a value is read from the variables of a plan, by properties.

import { hasIdentity, isThing } from "./values.mjs";

/** From what each thing is read on the shortest ways up to one: its owner and the key, or null of what a variable holds. It is
    null where no way leads to that one. */
export function waysTo({ variables }, goal) {
  const from = new Map();
  for (const held of variables.values()) if (isThing(held)) from.set(held, null);
  const next = [...from.keys()];
  for (const owner of next) {
    for (const [key, value] of owner.edges) {
      if (!hasIdentity(value) || from.has(value)) continue;
      from.set(value, { owner, key });
      if (value === goal) return from;
      if (isThing(value)) next.push(value);
    }
  }
  return null;
}
