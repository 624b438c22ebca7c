// What a view of a block has of an array's methods. Each word that they look at is a load of the plan, and each that they write a
// store.

import { call, raise } from "./core.mjs";
import { ScriptFault } from "./faults.mjs";
import { listOf } from "./iteration.mjs";
import { toNumber } from "./operators.mjs";
import { newArray } from "./properties.mjs";
import { isCallable } from "./values.mjs";

/** That `this` is a view, and how many words it has. */
function lengthOf(node, self) {
  if (self?.kind !== "view") throw new ScriptFault("a method of views is taken on views alone", node);
  return self.count;
}

const load = (cx, node, self, index) => cx.agent.realm.load(cx, node, self, index);
const store = (cx, node, self, index, value) => cx.agent.realm.store(cx, node, self, index, value);

/** An index that may count from the end, within a view. */
const place = (value, length, otherwise) => {
  if (value === undefined) return otherwise;
  const index = Math.trunc(Number(value)) || 0;
  return index < 0 ? Math.max(0, length + index) : Math.min(index, length);
};

/** Calls a function with each word, as it is by then; what `visit` gives for its answer, other than undefined, ends it. */
function* eachCall(cx, node, self, [callback, that], visit) {
  const length = lengthOf(node, self);
  if (!isCallable(callback)) raise(cx, node, "TypeError", `${String(callback)} is not a function`);
  for (let index = 0; index < length; index += 1) {
    const outer = cx.temporaries;
    cx.temporaries = [];
    try {
      const value = load(cx, node, self, index);
      const found = visit(yield* call(cx, node, callback, that, [value, index, self]), value, index);
      if (found !== undefined) return found;
    } finally {
      cx.writer.endTemporaries(node, cx.temporaries);
      cx.temporaries = outer;
    }
  }
  return undefined;
}

const calling = {
  *forEach(cx, node, self, values) { yield* eachCall(cx, node, self, values, () => undefined); },
  *some(cx, node, self, values) { return (yield* eachCall(cx, node, self, values, (isIt) => (isIt ? true : undefined))) ?? false; },
  *every(cx, node, self, values) { return (yield* eachCall(cx, node, self, values, (isIt) => (isIt ? undefined : false))) ?? true; },
  *find(cx, node, self, values) { return yield* eachCall(cx, node, self, values, (isIt, value) => (isIt ? value : undefined)); },
  *findIndex(cx, node, self, values) {
    return (yield* eachCall(cx, node, self, values, (isIt, value, index) => (isIt ? index : undefined))) ?? -1;
  },
  *reduce(cx, node, self, [callback, ...first]) {
    const length = lengthOf(node, self);
    if (!isCallable(callback)) raise(cx, node, "TypeError", `${String(callback)} is not a function`);
    if (first.length === 0 && length === 0) raise(cx, node, "TypeError", "Reduce of empty array with no initial value");
    let value = first.length > 0 ? first[0] : load(cx, node, self, 0);
    for (let index = 1 - first.length; index < length; index += 1) {
      value = yield* call(cx, node, callback, undefined, [value, load(cx, node, self, index), index, self]);
    }
    return value;
  },
};

const wordsOf = (cx, node, self) => Array.from({ length: lengthOf(node, self) }, (_, index) => load(cx, node, self, index));

const looking = {
  *at(cx, node, self, [index]) {
    const at = Math.trunc(Number(index)) || 0;
    const where = at < 0 ? lengthOf(node, self) + at : at;
    return where < 0 ? undefined : load(cx, node, self, where);
  },
  *includes(cx, node, self, [value]) { return wordsOf(cx, node, self).includes(value); },
  *indexOf(cx, node, self, [value]) { return wordsOf(cx, node, self).indexOf(value); },
  *join(cx, node, self, [between = ","]) { return wordsOf(cx, node, self).join(between); },
  *toString(cx, node, self) { return wordsOf(cx, node, self).join(); },
  *subarray(cx, node, self, [from, to]) {
    const length = lengthOf(node, self);
    const [start, end] = [place(from, length, 0), place(to, length, length)];
    return cx.agent.realm.part(self, start, Math.max(0, end - start));
  },
};

const changing = {
  *fill(cx, node, self, [value, from, to]) {
    const length = lengthOf(node, self);
    const number = yield* toNumber(cx, node, value);
    for (let index = place(from, length, 0); index < place(to, length, length); index += 1) store(cx, node, self, index, number);
    return self;
  },
  *set(cx, node, self, [source, from = 0]) {
    const values = yield* listOf(cx, node, source);
    if (from < 0 || from + values.length > lengthOf(node, self)) raise(cx, node, "RangeError", "offset is out of bounds");
    for (const [index, value] of values.entries()) store(cx, node, self, from + index, yield* toNumber(cx, node, value));
  },
};

const iterating = Object.fromEntries(["keys", "values", "entries"].map((part) => [part, function* (cx, node, self) {
  const length = lengthOf(node, self);
  let next = 0;
  return cx.agent.realm.iterator(cx, node, self, (inner) => {
    const index = next;
    if (index >= length) return undefined;
    next += 1;
    if (part === "keys") return { value: index };
    const value = load(inner, node, self, index);
    return { value: part === "values" ? value : newArray(inner, node, [index, value]) };
  });
}]));

export function installViewsAsArrays(realm) {
  const proto = realm.protos.view;
  for (const methods of [calling, looking, changing, iterating]) realm.methods(proto, methods);
  realm.iterates(proto, "values");
}
