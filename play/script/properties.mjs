// Properties of the script's values: to look them up, to get and set them, with accessors and prototypes. What a property holds
// is held by the plan's object too.

import { ScriptFault } from "./faults.mjs";
import { call, raise } from "./core.mjs";
import { Sym, isThing, typeOf } from "./values.mjs";

const INDEX = /^(0|[1-9]\d{0,8})$/;
const isIndex = (key) => typeof key === "string" && INDEX.test(key);

/** A value as a property's key. */
export function keyOf(value) {
  if (value instanceof Sym) return value;
  return isThing(value) ? `object ${value.number}` : String(value);
}

const nameOf = (key) => (key instanceof Sym ? `Symbol(${key.description ?? ""})` : (key.name ?? key));

/** A thing's own property, or undefined. */
export function ownProperty(thing, key) {
  if (thing.items !== undefined) {
    if (isIndex(key)) return Number(key) in thing.items ? { value: thing.items[Number(key)], isEnumerable: true } : undefined;
    if (key === "length") return { value: thing.items.length, isEnumerable: false };
  }
  if (thing.kind === "view" && isIndex(key)) return Number(key) < thing.count ? { isEnumerable: true } : undefined;
  thing.complete?.(key);
  return thing.properties.get(key);
}

/** The property that a value has by itself or by a prototype, and what has it. */
export function findProperty(thing, key) {
  for (let owner = thing; owner !== null; owner = owner.proto) {
    const found = ownProperty(owner, key);
    if (found !== undefined) return { owner, found };
  }
  return null;
}

/** The keys of a thing's own properties, as Reflect.ownKeys orders them, without symbols. */
export function ownKeys(thing) {
  const items = Object.keys(thing.items ?? Array(thing.count ?? 0).fill());
  const texts = [...thing.properties.keys()].filter((key) => typeof key === "string");
  const indices = texts.filter(isIndex).sort((one, other) => one - other);
  return [...items, ...indices, ...texts.filter((key) => !isIndex(key))];
}

export const enumerableKeys = (thing) => ownKeys(thing).filter((key) => ownProperty(thing, key).isEnumerable);

/** Gets a property of any value. */
export function* getProperty(cx, node, target, key) {
  if (target === undefined || target === null) {
    raise(cx, node, "TypeError", `Cannot read properties of ${target} (reading '${nameOf(key)}')`);
  }
  if (typeof target === "string" && (key === "length" || isIndex(key))) return target[key];
  if (target.kind === "view" && isIndex(key)) return cx.agent.realm.load(cx, node, target, Number(key));
  const thing = isThing(target) ? target : cx.agent.realm.protoOf(target);
  const found = findProperty(thing, key);
  if (found === null) return cx.agent.realm.checkKnown(node, thing, key);
  return yield* valueOf(cx, node, target, key, found);
}

function* valueOf(cx, node, target, key, { owner, found }) {
  if ("value" in found) return cx.writer.fetch(node, owner, cx.writer.key(owner, key), found.value, cx.temporaries);
  return found.get === undefined ? undefined : yield* call(cx, node, found.get, target, []);
}

/** Sets a property of any value, as an assignment does. */
export function* setProperty(cx, node, target, key, value) {
  if (target === undefined || target === null) {
    raise(cx, node, "TypeError", `Cannot set properties of ${target} (setting '${nameOf(key)}')`);
  }
  if (!isThing(target)) {
    raise(cx, node, "TypeError", `Cannot create property '${nameOf(key)}' on ${typeOf(target)} '${nameOf(target)}'`);
  }
  if (target.kind === "view" && isIndex(key)) return cx.agent.realm.store(cx, node, target, Number(key), value);
  const place = findProperty(target, key);
  if (place !== null && !("value" in place.found)) {
    if (place.found.set === undefined) {
      raise(cx, node, "TypeError", `Cannot set property ${nameOf(key)} of #<Object> which has only a getter`);
    }
    yield* call(cx, node, place.found.set, target, [value]);
    return value;
  }
  if (place?.owner === target) assignOwn(cx, node, target, key, value, place.found);
  else {
    if (!target.isExtensible) raise(cx, node, "TypeError", `Cannot add property ${nameOf(key)}, object is not extensible`);
    define(cx, node, target, key, value);
  }
  return value;
}

function assignOwn(cx, node, target, key, value, found) {
  cx.agent.realm.checkOwn(cx, node, target);
  if (found.isReadOnly) raise(cx, node, "TypeError", `Cannot assign to read only property '${nameOf(key)}' of object`);
  if (target.items !== undefined && key === "length") setLength(cx, node, target, value);
  else if (target.items !== undefined && isIndex(key)) setItem(cx, node, target, Number(key), value);
  else {
    found.value = value;
    cx.writer.hold(node, target, cx.writer.key(target, key), value, cx.temporaries);
  }
}

/** Defines an own property with a value. */
export function define(cx, node, thing, key, value, { isEnumerable = true } = {}) {
  if (thing.isBuiltIn) {
    throw new ScriptFault("what the language brings along can't be changed here: other code relies on it", node);
  }
  cx.agent.realm.checkOwn(cx, node, thing);
  if (thing.items !== undefined && isIndex(key)) return setItem(cx, node, thing, Number(key), value);
  thing.properties.set(key, { value, isEnumerable });
  cx.writer.hold(node, thing, cx.writer.key(thing, key), value, cx.temporaries);
  return value;
}

/** Defines an accessor, or the other half of one. */
export function defineAccessor(cx, node, thing, key, kind, callee, { isEnumerable = true } = {}) {
  const there = thing.properties.get(key);
  const accessor = there !== undefined && !("value" in there) ? there : { isEnumerable };
  accessor[kind] = callee;
  thing.properties.set(key, accessor);
  cx.writer.hold(node, thing, cx.writer.key(thing, `${kind} ${nameOf(key)}`), callee, cx.temporaries);
}

export function* deleteProperty(cx, node, thing, key) {
  if (!isThing(thing)) return true;
  if (thing.items !== undefined && isIndex(key)) delete thing.items[Number(key)];
  else if (thing.properties.get(key)?.isReadOnly) raise(cx, node, "TypeError", `Cannot delete property '${nameOf(key)}' of #<Object>`);
  thing.properties.delete(key);
  cx.writer.drop(node, thing, cx.writer.key(thing, key), cx.temporaries);
  return true;
}

// Arrays

export function setItem(cx, node, array, index, value) {
  if (array.isFrozen) raise(cx, node, "TypeError", `Cannot assign to read only property '${index}' of object '[object Array]'`);
  array.items[index] = value;
  cx.writer.hold(node, array, cx.writer.key(array, String(index)), value, cx.temporaries);
  return value;
}

export function setLength(cx, node, array, length) {
  for (let index = length; index < array.items.length; index += 1) {
    cx.writer.drop(node, array, cx.writer.key(array, String(index)), cx.temporaries);
  }
  array.items.length = length;
}

export function item(cx, node, array, index) {
  return cx.writer.fetch(node, array, cx.writer.key(array, String(index)), array.items[index], cx.temporaries);
}

/** A new array with these values, which the plan's variables hold. It is in the plan as soon as it has an object. */
export function newArray(cx, node, values) {
  const array = cx.agent.realm.array();
  values.forEach((value, index) => setItem(cx, node, array, index, value));
  return array;
}
