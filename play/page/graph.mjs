// The heap as a graph: what stands in it, what each thing leads to, and how far each is from the roots.

import { identityOf } from "./replay.mjs";

/** The nodes and edges of a heap, with what was emptied just now. A node has a `key` that stays its own: `n1`, `var x`, `KeptAlive`, and `e4_1` for the point of
    an entry. An edge is strong, weak, or none at all where it only leads to a point. */
export function graphOf(heap, emptied = heap.emptied) {
  const nodes = [...roots(heap), ...things(heap, emptied)];
  const edges = [...fromRoots(heap)];
  for (const [identity, thing] of heap.things) {
    edges.push(...properties(identity, thing), ...weak(identity, thing));
    for (const [key, value] of thing.entries) entry(nodes, edges, identity, key, value);
  }
  edges.push(...registrations(heap));
  return { nodes, edges };
}

const named = (identity) => `n${identity}`;

function* roots(heap) {
  for (const [name, value] of heap.told) {
    if (identityOf(value) !== null) yield { key: `var ${name}`, shape: "root", label: name, title: `variable ${name}`, identity: identityOf(value) };
  }
  if (heap.keptAlive.size > 0) yield { key: "KeptAlive", shape: "root", label: "KeptAlive", title: "KeptAlive: until the job ends" };
}

function* things(heap, emptied) {
  const near = distances(heap);
  for (const identity of emptied) yield thing(heap, identity, { isGone: true });
  for (const identity of heap.things.keys()) yield thing(heap, identity, { distance: near.get(identity) ?? null });
}

function thing(heap, identity, more) {
  const kind = heap.kinds.get(identity), block = heap.things.get(identity)?.block ?? null;
  return { key: named(identity), shape: "thing", identity, kind, block, label: `${kind} ${identity}`, isGone: false, distance: null, ...more };
}

function* fromRoots(heap) {
  for (const [name, value] of heap.told) {
    if (identityOf(value) !== null) yield { from: `var ${name}`, to: named(identityOf(value)), kind: "strong", label: "" };
  }
  for (const identity of heap.keptAlive) yield { from: "KeptAlive", to: named(identity), kind: "strong", label: "" };
}

function* properties(identity, { properties: held }) {
  for (const [key, value] of held) {
    if (identityOf(value) !== null) yield { from: named(identity), to: named(identityOf(value)), kind: "strong", label: key };
  }
}

function* weak(identity, { target, members }) {
  if (target !== null) yield { from: named(identity), to: named(target), kind: "weak", label: "" };
  for (const member of members) yield { from: named(identity), to: named(member), kind: "weak", label: "" };
}

/** The WeakMap and the key come together in a point, from where the value is held. */
function entry(nodes, edges, weakmap, key, value) {
  const point = `e${weakmap}_${key}`, held = identityOf(value);
  nodes.push({ key: point, shape: "point", label: held === null ? plain(value) : "", weakmap: named(weakmap), under: named(key) });
  edges.push({ from: named(weakmap), to: point, kind: "part", label: "" });
  edges.push({ from: named(key), to: point, kind: "key", label: "" });
  if (held !== null) edges.push({ from: point, to: named(held), kind: "strong", label: "" });
}

function* registrations(heap) {
  for (const [number, { registry, target, held, token }] of heap.registrations) {
    const from = named(registry);
    if (target !== null) yield { from, to: named(target), kind: "weak", label: `registration ${number}` };
    if (identityOf(held) !== null) yield { from, to: named(identityOf(held)), kind: "strong", label: `held ${number}` };
    if (token !== null && token !== target) yield { from, to: named(token), kind: "weak", label: `token ${number}` };
  }
}

/** A value without an identity, in the letters of a plan. */
export function plain(value) {
  return value?.symbolfor === undefined ? JSON.stringify(value) : `symbolfor "${value.symbolfor}"`;
}

/** How many steps each value is from the roots, of those that are reached: an entry's value comes after both its WeakMap and
    its key. `from` are the roots, and `holds` says what a value holds by itself. */
export function distances(heap, from = firsts(heap), holds = propertiesOf) {
  const near = new Map(), later = new Map();
  let ahead = from;
  for (let distance = 1; ahead.length > 0; distance += 1) {
    const found = ahead.filter((identity) => identity !== null && heap.things.has(identity) && !near.has(identity));
    for (const identity of found) near.set(identity, distance);
    ahead = [...new Set(found)].flatMap((identity) => led(heap, identity, near, later, holds));
  }
  return near;
}

function firsts(heap) {
  const registries = [...heap.things].filter(([, thing]) => thing.kind === "FinalizationRegistry").map(([identity]) => identity);
  const held = [...heap.registrations.values()].map((cell) => identityOf(cell.held));
  return [...[...heap.variables.values()].map(identityOf), ...heap.keptAlive, ...registries, ...held];
}

const propertiesOf = (heap, identity) => [...heap.things.get(identity).properties.values()].map(identityOf);

/** What a value leads to that is reached now. Of an entry whose key alone is reached by then, the WeakMap finds it later, and
    so the other way round. */
function led(heap, identity, near, later, holds) {
  const { entries } = heap.things.get(identity);
  const found = [...holds(heap, identity), ...(later.get(identity) ?? [])];
  for (const [key, value] of entries) {
    if (near.has(key)) found.push(identityOf(value));
    else later.set(key, [...(later.get(key) ?? []), identityOf(value)]);
  }
  return found;
}
