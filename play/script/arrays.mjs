// Arrays: their methods are those of the standard on the array's items, and what moves in an array moves in the plan's object.

import { call, raise } from "./core.mjs";
import { ScriptFault } from "./faults.mjs";
import { linkPrototype, newInstance } from "./functions.mjs";
import { iterate, partOfArray } from "./iteration.mjs";
import { toNumber, toText } from "./operators.mjs";
import { getProperty, item, newArray, setItem, setLength } from "./properties.mjs";
import { isCallable, isThing } from "./values.mjs";

/** That `this` is an array. */
function itemsOf(cx, node, self) {
  if (self?.items === undefined) throw new ScriptFault("a method of arrays is taken on arrays alone", node);
  return self.items;
}

/** An index that may count from the end, within an array. */
const place = (value, length, otherwise) => {
  if (value === undefined) return otherwise;
  const index = Math.trunc(Number(value)) || 0;
  return index < 0 ? Math.max(0, length + index) : Math.min(index, length);
};

/** Calls a function with each item; what `visit` gives for its answer, other than undefined, ends it. */
function* eachCall(cx, node, self, [callback, that], visit, order = (length) => [...Array(length).keys()]) {
  if (!isCallable(callback)) raise(cx, node, "TypeError", `${String(callback)} is not a function`);
  for (const index of order(itemsOf(cx, node, self).length)) {
    if (!(index in self.items)) continue;
    const outer = cx.temporaries;
    cx.temporaries = [];
    try {
      const value = item(cx, node, self, index);
      const found = visit(yield* call(cx, node, callback, that, [value, index, self]), self.items[index], index);
      if (found !== undefined) return found;
    } finally {
      cx.writer.endTemporaries(node, cx.temporaries);
      cx.temporaries = outer;
    }
  }
  return undefined;
}

/** Items with these indices, in a new array. */
const gathered = (cx, node, self, indices) => newArray(cx, node, indices.map((index) => item(cx, node, self, index)));

const calling = {
  *forEach(cx, node, self, values) {
    yield* eachCall(cx, node, self, values, () => undefined);
  },
  *filter(cx, node, self, values) {
    const indices = [];
    yield* eachCall(cx, node, self, values, (isIn, value, index) => void (isIn && indices.push(index)));
    return gathered(cx, node, self, indices);
  },
  *find(cx, node, self, values) {
    const found = yield* eachCall(cx, node, self, values, (isIt, value, index) => (isIt ? index : undefined));
    return found === undefined ? undefined : item(cx, node, self, found);
  },
  *findIndex(cx, node, self, values) {
    return (yield* eachCall(cx, node, self, values, (isIt, value, index) => (isIt ? index : undefined))) ?? -1;
  },
  *findLast(cx, node, self, values) {
    const found = yield* calling.findLastIndex(cx, node, self, values);
    return found < 0 ? undefined : item(cx, node, self, found);
  },
  *findLastIndex(cx, node, self, values) {
    const back = (length) => [...Array(length).keys()].reverse();
    return (yield* eachCall(cx, node, self, values, (isIt, value, index) => (isIt ? index : undefined), back)) ?? -1;
  },
  *some(cx, node, self, values) {
    return (yield* eachCall(cx, node, self, values, (isIt) => (isIt ? true : undefined))) ?? false;
  },
  *every(cx, node, self, values) {
    return (yield* eachCall(cx, node, self, values, (isIt) => (isIt ? undefined : false))) ?? true;
  },
};

const folding = {
  *map(cx, node, self, values) {
    const made = cx.agent.realm.array();
    made.items.length = itemsOf(cx, node, self).length;
    for (let index = 0; index < made.items.length; index += 1) {
      if (!isCallable(values[0])) raise(cx, node, "TypeError", `${String(values[0])} is not a function`);
      if (index in self.items) {
        setItem(cx, node, made, index, yield* call(cx, node, values[0], values[1], [item(cx, node, self, index), index, self]));
      }
    }
    return made;
  },
  *flatMap(cx, node, self, values) {
    const mapped = yield* folding.map(cx, node, self, values);
    return yield* moving.flat(cx, node, mapped, [1]);
  },
  *reduce(cx, node, self, [callback, ...first]) {
    return yield* fold(cx, node, self, callback, first, [...itemsOf(cx, node, self).keys()]);
  },
  *reduceRight(cx, node, self, [callback, ...first]) {
    return yield* fold(cx, node, self, callback, first, [...itemsOf(cx, node, self).keys()].reverse());
  },
};

function* fold(cx, node, self, callback, first, indices) {
  if (!isCallable(callback)) raise(cx, node, "TypeError", `${String(callback)} is not a function`);
  if (first.length === 0 && indices.length === 0) raise(cx, node, "TypeError", "Reduce of empty array with no initial value");
  let value = first.length > 0 ? first[0] : item(cx, node, self, indices.shift());
  for (const index of indices) {
    value = yield* call(cx, node, callback, undefined, [value, item(cx, node, self, index), index, self]);
  }
  return value;
}

/** Writes the items of an array anew, from an index on. */
function rewrite(cx, node, self, items, from = 0) {
  const there = [...self.items];
  for (let index = from; index < items.length; index += 1) {
    if (items[index] !== there[index] || index >= there.length) setItem(cx, node, self, index, items[index]);
  }
  if (items.length < there.length) setLength(cx, node, self, items.length);
}

/** Holds some items while the array is written anew. */
function holdItems(cx, node, self, from = 0) {
  for (let index = from; index < self.items.length; index += 1) if (isThing(self.items[index])) item(cx, node, self, index);
}

const changing = {
  *push(cx, node, self, values) {
    for (const value of values) setItem(cx, node, self, itemsOf(cx, node, self).length, value);
    return self.items.length;
  },
  *pop(cx, node, self) {
    const items = itemsOf(cx, node, self);
    if (items.length === 0) return undefined;
    const value = item(cx, node, self, items.length - 1);
    setLength(cx, node, self, items.length - 1);
    return value;
  },
  *shift(cx, node, self) {
    return (yield* changing.splice(cx, node, self, [0, 1])).items[0];
  },
  *unshift(cx, node, self, values) {
    holdItems(cx, node, self);
    rewrite(cx, node, self, [...values, ...itemsOf(cx, node, self)]);
    return self.items.length;
  },
  *splice(cx, node, self, [from, count, ...values]) {
    const { length } = itemsOf(cx, node, self);
    const start = place(from, length, 0);
    const most = count === undefined ? length - start : Math.min(Math.max(Number(count), 0), length - start);
    holdItems(cx, node, self, start);
    const taken = newArray(cx, node, self.items.slice(start, start + most));
    rewrite(cx, node, self, [...self.items.slice(0, start), ...values, ...self.items.slice(start + most)], start);
    return taken;
  },
  *reverse(cx, node, self) {
    holdItems(cx, node, self);
    rewrite(cx, node, self, [...itemsOf(cx, node, self)].reverse());
    return self;
  },
  *sort(cx, node, self, [compare]) {
    const items = [...itemsOf(cx, node, self)];
    holdItems(cx, node, self);
    for (const value of items) cx.writer.need(value);
    try {
      rewrite(cx, node, self, yield* sorted(cx, node, items, compare));
    } finally {
      for (const value of items) cx.writer.needNoMore(value, cx.temporaries);
    }
    return self;
  },
  *toReversed(cx, node, self) {
    return yield* changing.reverse(cx, node, yield* moving.slice(cx, node, self, []));
  },
  *toSorted(cx, node, self, values) {
    return yield* changing.sort(cx, node, yield* moving.slice(cx, node, self, []), values);
  },
  *fill(cx, node, self, [value, from, to]) {
    const { length } = itemsOf(cx, node, self);
    for (let index = place(from, length, 0); index < place(to, length, length); index += 1) {
      setItem(cx, node, self, index, value);
    }
    return self;
  },
};

/** A stable sort by merging, as a script's comparison may wait for nothing. */
function* sorted(cx, node, items, compare) {
  if (items.length < 2) return [...items];
  const half = items.length >> 1;
  const left = yield* sorted(cx, node, items.slice(0, half), compare);
  const right = yield* sorted(cx, node, items.slice(half), compare);
  const all = [];
  while (left.length > 0 && right.length > 0) {
    all.push((yield* isAfter(cx, node, left[0], right[0], compare)) ? right.shift() : left.shift());
  }
  return [...all, ...left, ...right];
}

function* isAfter(cx, node, one, other, compare) {
  if (one === undefined || other === undefined) return one === undefined && other !== undefined;
  if (compare !== undefined) return (yield* toNumber(cx, node, yield* call(cx, node, compare, undefined, [one, other]))) > 0;
  return (yield* toText(cx, node, one)) > (yield* toText(cx, node, other));
}

const moving = {
  *slice(cx, node, self, [from, to]) {
    const { length } = itemsOf(cx, node, self);
    const [start, end] = [place(from, length, 0), place(to, length, length)];
    return gathered(cx, node, self, [...Array(Math.max(0, end - start)).keys()].map((index) => index + start));
  },
  *concat(cx, node, self, values) {
    const parts = [self, ...values].flatMap((one) => (one?.items ? one.items.map((_, index) => item(cx, node, one, index)) : [one]));
    return newArray(cx, node, parts);
  },
  *flat(cx, node, self, [depth = 1]) {
    const flatten = (array, left) => array.items.flatMap((one, index) => {
      const value = item(cx, node, array, index);
      return one?.items && left > 0 ? flatten(value, left - 1) : [value];
    });
    return newArray(cx, node, flatten(self, depth));
  },
  *at(cx, node, self, [index]) {
    const at = Math.trunc(Number(index)) || 0;
    const where = at < 0 ? itemsOf(cx, node, self).length + at : at;
    return where in self.items ? item(cx, node, self, where) : undefined;
  },
};

const looking = {
  *includes(cx, node, self, [value]) { return itemsOf(cx, node, self).includes(value); },
  *indexOf(cx, node, self, [value]) { return itemsOf(cx, node, self).indexOf(value); },
  *lastIndexOf(cx, node, self, [value]) { return itemsOf(cx, node, self).lastIndexOf(value); },
  *join(cx, node, self, [between = ","]) {
    const texts = [];
    for (const index of itemsOf(cx, node, self).keys()) {
      const value = item(cx, node, self, index);
      texts.push(value === undefined || value === null ? "" : yield* toText(cx, node, value));
    }
    return texts.join(between);
  },
  *toString(cx, node, self) { return yield* looking.join(cx, node, self, []); },
};

const iterating = Object.fromEntries(["keys", "values", "entries"].map((part) => [part, function* (cx, node, self) {
  itemsOf(cx, node, self);
  let next = 0;
  return cx.agent.realm.iterator(cx, node, self, (inner) => {
    const index = next;
    if (index >= self.items.length) return undefined;
    next += 1;
    return { value: partOfArray(inner, node, self, index, part) };
  });
}]));

const constructors = {
  *of(cx, node, self, values) { return newArray(cx, node, values); },
  *isArray(cx, node, self, [value]) { return value?.items !== undefined; },
  *from(cx, node, self, [source, map]) {
    const values = [];
    if (isThing(source) && source.items === undefined && source.pairs === undefined && !isIterable(cx, source)) {
      const length = yield* toNumber(cx, node, yield* getProperty(cx, node, source, "length"));
      for (let index = 0; index < length; index += 1) values.push(yield* getProperty(cx, node, source, String(index)));
    } else {
      yield* iterate(cx, node, source, function* (value) { values.push(value); });
    }
    if (map === undefined) return newArray(cx, node, values);
    const made = newArray(cx, node, []);
    for (const [index, value] of values.entries()) {
      setItem(cx, node, made, index, yield* call(cx, node, map, undefined, [value, index]));
    }
    return made;
  },
};

const isIterable = (cx, source) => cx.agent.realm.hasIterator(source);

export function installArrays(realm) {
  const proto = realm.protos.array;
  const made = realm.constructorOf("Array", proto, function* (cx, node, self, values, newTarget = made) {
    const array = Object.assign(newInstance(cx, node, newTarget, "array"), { items: [] });
    if (newTarget !== made) linkPrototype(cx, node, cx.make(node, array));
    if (values.length === 1 && typeof values[0] === "number") array.items.length = values[0];
    else values.forEach((value, index) => setItem(cx, node, array, index, value));
    return array;
  });
  realm.methods(made, constructors);
  for (const methods of [calling, folding, changing, moving, looking, iterating]) realm.methods(proto, methods);
  realm.iterates(proto, "values");
}
