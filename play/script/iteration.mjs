// Iteration over arrays, texts, Maps, Sets, generators, and objects with an iterator of their own.

import { call, guarded, needing, raise } from "./core.mjs";
import { Thrown, isSeen } from "./faults.mjs";
import { findProperty, getProperty, item, newArray } from "./properties.mjs";
import { KNOWN, isThing } from "./values.mjs";

/** Calls `visit` with each value, which the plan's variables hold; where that gives true, the iteration ends there. */
export function* iterate(cx, node, source, visit) {
  if (typeof source === "string") return yield* each([...source].values(), visit);
  if (source?.kind === "array" && hasOwnIteration(cx, source)) return yield* eachItem(cx, node, source, visit);
  if (source?.pairs !== undefined && hasOwnIteration(cx, source)) {
    return yield* eachPair(cx, node, source, source.kind === "map" ? "entries" : "keys", visit);
  }
  if (source?.kind === "view" && findProperty(source, KNOWN.iterator).owner === cx.agent.realm.protos.view) {
    return yield* eachWord(cx, node, source, visit);
  }
  const iterator = yield* iteratorOf(cx, node, source);
  const step = ownSteps(cx, node, iterator);
  if (step !== null) return yield* eachStep(cx, node, iterator, step, visit);
  return yield* eachOfIterator(cx, node, iterator, visit);
}

/** Whether nobody has put another iterator in the place of the language's. */
const hasOwnIteration = (cx, source) => !source.properties.has(KNOWN.iterator) && source.proto === cx.agent.realm.protos[source.kind];

function* each(values, visit) {
  for (const value of values) if (yield* visit(value)) return;
}

function* eachItem(cx, node, array, visit) {
  yield* needing(cx, array, function* () {
    for (let index = 0; index < array.items.length; index += 1) if (yield* visit(item(cx, node, array, index))) return;
  });
}

function* eachWord(cx, node, view, visit) {
  yield* needing(cx, view, function* () {
    for (let index = 0; index < view.count; index += 1) if (yield* visit(cx.agent.realm.load(cx, node, view, index))) return;
  });
}

/** The entries of a Map or a Set, also those that are added meanwhile. */
export function* eachPair(cx, node, source, part, visit) {
  yield* needing(cx, source, function* () {
    for (const [key, entry] of source.pairs) if (yield* visit(partOf(cx, node, source, key, entry, part))) return;
  });
}

/** What iteration gives for an entry: its key, its value, or both in an array. */
export function partOf(cx, node, source, key, entry, part) {
  const names = cx.writer.keys.entry(key);
  const read = (name, value) => cx.writer.fetch(node, source, name, value, cx.temporaries);
  if (part === "keys") return read(source.kind === "set" ? names.value : names.key, key);
  if (part === "values") return read(names.value, entry.value);
  return newArray(cx, node, [read(source.kind === "set" ? names.value : names.key, key), read(names.value, entry.value)]);
}

/** How an iterator of the language goes on, without an object for each step; null of other iterators. */
function ownSteps(cx, node, iterator) {
  if (iterator?.properties?.has("next")) return null;
  if (iterator?.step) return { *next() { return iterator.step(cx); }, close: null };
  if (iterator?.kind !== "generator") return null;
  return {
    *next() {
      const { value, done } = yield* cx.agent.realm.resumeGenerator(cx, node, iterator, "next", undefined);
      return done ? undefined : { value };
    },
    *close() { yield* cx.agent.realm.resumeGenerator(cx, node, iterator, "return", undefined); },
  };
}

function* eachStep(cx, node, iterator, { next, close }, visit) {
  yield* needing(cx, iterator, function* () {
    for (let step = yield* next(); step !== undefined; step = yield* next()) {
      if (yield* close ? closing(cx, visit, step.value, close) : visit(step.value)) return;
    }
  });
}

/** Visits a value of an iterator, which is closed where the iteration ends there. What was thrown before goes on, also where closing
    throws. */
export function* closing(cx, visit, value, close) {
  let ends;
  try {
    ends = yield* guarded(cx, () => visit(value));
  } catch (error) {
    if (!isSeen(error)) throw error;
    try {
      yield* close();
    } catch (other) {
      if (!(other instanceof Thrown && error instanceof Thrown)) throw other;
      other.held?.end(other.node, cx.writer);
    }
    throw error;
  }
  if (ends) yield* close();
  return ends;
}

/** The same of an array's item. */
export function partOfArray(cx, node, array, index, part) {
  if (part === "keys") return index;
  const value = item(cx, node, array, index);
  return part === "values" ? value : newArray(cx, node, [index, value]);
}

function* iteratorOf(cx, node, source) {
  if (source === undefined || source === null) raise(cx, node, "TypeError", `${source} is not iterable`);
  const make = yield* getProperty(cx, node, source, KNOWN.iterator);
  if (make === undefined) raise(cx, node, "TypeError", "the value is not iterable");
  return yield* call(cx, node, make, source, []);
}

/** One step of an iterator: undefined where it is done. */
function* stepOf(cx, node, iterator) {
  const step = yield* call(cx, node, yield* getProperty(cx, node, iterator, "next"), iterator, []);
  if (!isThing(step)) raise(cx, node, "TypeError", `Iterator result ${step} is not an object`);
  return (yield* getProperty(cx, node, step, "done")) ? undefined : { value: yield* getProperty(cx, node, step, "value") };
}

function* eachOfIterator(cx, node, iterator, visit) {
  const close = function* () {
    const end = yield* getProperty(cx, node, iterator, "return");
    if (end !== undefined) yield* call(cx, node, end, iterator, []);
  };
  yield* needing(cx, iterator, function* () {
    for (;;) {
      const step = yield* stepOf(cx, node, iterator);
      if (step === undefined || (yield* closing(cx, visit, step.value, close))) return;
    }
  });
}

/** All values of an iteration. */
export function* listOf(cx, node, source) {
  const values = [];
  yield* iterate(cx, node, source, function* (value) {
    values.push(value);
    return false;
  });
  return values;
}
