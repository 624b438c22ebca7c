// All that leads to a value of a heap: what keeps it, and what only holds it weakly. The heap is the page's own, so this is not
// proved as the ways are that the trace tells.

import { distances } from "./graph.mjs";
import { identityOf } from "./replay.mjs";

/** Each edge into a value, those first that keep. An edge has a `kind`, whether it is `weak`, and `from`, the values that it
    comes from. */
export function leadingTo(heap, identity) {
  return [...fromRoots(heap, identity), ...fromThings(heap, identity), ...weakly(heap, identity)];
}

function* fromRoots({ variables, keptAlive, things, registrations }, identity) {
  for (const [variable, value] of variables) if (identityOf(value) === identity) yield { kind: "variable", variable, from: [] };
  if (keptAlive.has(identity)) yield { kind: "keptalive", from: [] };
  if (things.get(identity)?.kind === "FinalizationRegistry") yield { kind: "registry", from: [] };
  for (const [number, { registry, held }] of registrations) {
    if (identityOf(held) === identity) yield { kind: "held", number, registry, from: [] };
  }
}

function* fromThings({ things }, identity) {
  for (const [object, { properties, entries }] of things) {
    for (const [property, value] of properties) if (identityOf(value) === identity) yield { kind: "property", object, property, from: [object] };
    for (const [key, value] of entries) if (identityOf(value) === identity) yield { kind: "entry", weakmap: object, key, from: [object, key] };
  }
}

function* weakly({ things, registrations }, identity) {
  for (const [object, { kind, target, entries, members }] of things) {
    const found = { target: target === identity, key: entries.has(identity), member: members.has(identity) };
    for (const [how, isIt] of Object.entries(found)) if (isIt) yield { kind: how, isWeak: true, object, of: kind, from: [object] };
  }
  for (const [number, { registry, target, token }] of registrations) {
    if (target === identity) yield { kind: "registered", isWeak: true, number, registry, from: [registry] };
    if (token === identity) yield { kind: "token", isWeak: true, number, registry, from: [registry] };
  }
}

/** An edge in words; `name` says what a value is called, and `hides` whether a variable is not told. */
export function saidOfEdge(edge, { name, hides }) {
  const words = WORDS[edge.kind](edge, name, hides);
  return edge.isWeak ? `weakly: ${words}` : words;
}

const WORDS = {
  variable: ({ variable }, name, hides) => (hides(variable) ? "the statement that runs" : `variable ${variable}`),
  keptalive: () => "KeptAlive, until the job ends",
  registry: () => "it is a FinalizationRegistry, and none is ever emptied",
  held: ({ number, registry }, name) => `held value of registration ${number} of ${name(registry)}`,
  property: ({ property, object }, name) => `property ${property} of ${name(object)}`,
  entry: ({ weakmap, key }, name) => `entry of ${name(weakmap)} under ${name(key)}, as long as both are reached`,
  target: ({ object }, name) => `target of ${name(object)}`,
  key: ({ object }, name) => `key of ${name(object)}`,
  member: ({ object }, name) => `member of ${name(object)}`,
  registered: ({ number, registry }, name) => `target of registration ${number} of ${name(registry)}`,
  token: ({ number, registry }, name) => `token of registration ${number} of ${name(registry)}`,
};

/** Which of the values that an edge comes from are not reached themselves: then it keeps nothing. */
export function unreached({ from }, near) {
  return from.filter((identity) => !near.has(identity));
}

/** The edges into a value in words, each with itself. */
export function saidOfAll(heap, identity, telling) {
  const near = distances(heap);
  return leadingTo(heap, identity).map((edge) => {
    const lost = unreached(edge, near).map(telling.name);
    return { edge, text: `${saidOfEdge(edge, telling)}${lost.length === 0 ? "" : ` (nothing leads to ${lost.join(" and ")})`}` };
  });
}
