// Object, Function and Symbol.

import { call, raise } from "./core.mjs";
import { ScriptFault } from "./faults.mjs";
import { assignAll } from "./expressions.mjs";
import { link } from "./functions.mjs";
import { iterate } from "./iteration.mjs";
import { toText } from "./operators.mjs";
import { define, defineAccessor, deleteProperty, enumerableKeys, findProperty, getProperty, keyOf, newArray, ownKeys, ownProperty } from "./properties.mjs";
import { KNOWN, Sym, Thing, hasIdentity, isThing } from "./values.mjs";

const checkThing = (cx, node, value) => {
  if (value === undefined || value === null) raise(cx, node, "TypeError", "Cannot convert undefined or null to object");
};

const newObject = (cx, node, proto = cx.agent.realm.protos.object) => {
  const made = cx.make(node, new Thing("object", proto));
  if (proto !== null && !proto.isBuiltIn) link(cx, node, made, "prototype", proto);
  return made;
};

const symbolKeys = (thing) => [...thing.properties.keys()].filter((key) => key instanceof Sym);

/** A list of what each own enumerable property gives. */
const listing = (give) => function* (cx, node, self, [value]) {
  checkThing(cx, node, value);
  const values = [];
  const keys = typeof value === "string" ? [...value].keys() : isThing(value) ? enumerableKeys(value) : [];
  for (const key of keys) values.push(yield* give(cx, node, value, String(key)));
  return newArray(cx, node, values);
};

function* describe(cx, node, thing, key, descriptor) {
  const isEnumerable = Boolean(yield* getProperty(cx, node, descriptor, "enumerable"));
  for (const kind of ["get", "set"]) {
    const accessor = yield* getProperty(cx, node, descriptor, kind);
    if (accessor !== undefined) defineAccessor(cx, node, thing, key, kind, accessor, { isEnumerable });
  }
  if (findProperty(descriptor, "value") === null) return;
  define(cx, node, thing, key, yield* getProperty(cx, node, descriptor, "value"), { isEnumerable });
  const property = ownProperty(thing, key);
  if (!(yield* getProperty(cx, node, descriptor, "writable")) && thing.items === undefined) property.isReadOnly = true;
}

/** Nothing can be added to a thing any more, and with `isReadOnly` nothing changed. */
function close(thing, isReadOnly) {
  if (!isThing(thing)) return thing;
  thing.isExtensible = false;
  thing.isFrozen = isReadOnly;
  for (const property of isReadOnly ? thing.properties.values() : []) property.isReadOnly = true;
  return thing;
}

const statics = {
  keys: listing(function* (cx, node, value, key) { return key; }),
  values: listing(function* (cx, node, value, key) { return yield* getProperty(cx, node, value, key); }),
  entries: listing(function* (cx, node, value, key) { return newArray(cx, node, [key, yield* getProperty(cx, node, value, key)]); }),
  *assign(cx, node, self, [goal, ...sources]) {
    checkThing(cx, node, goal);
    for (const source of sources) yield* assignAll(cx, node, goal, source);
    return goal;
  },
  *is(cx, node, self, [left, right]) {
    const both = [left, right].map((value) => (hasIdentity(value) ? cx.operand(node, value) : null));
    return both.includes(null) ? Object.is(left, right) : cx.ask(node, ["same", ...both]);
  },
  *freeze(cx, node, self, [value]) { return close(value, true); },
  *seal(cx, node, self, [value]) { return close(value, false); },
  *preventExtensions(cx, node, self, [value]) { return close(value, false); },
  *isFrozen(cx, node, self, [value]) { return !isThing(value) || value.isFrozen === true; },
  *isExtensible(cx, node, self, [value]) { return isThing(value) && value.isExtensible; },
  *create(cx, node, self, [proto, descriptors]) {
    if (proto !== null && !isThing(proto)) raise(cx, node, "TypeError", "Object prototype may only be an Object or null");
    const made = newObject(cx, node, proto);
    for (const key of descriptors ? enumerableKeys(descriptors) : []) {
      yield* describe(cx, node, made, key, yield* getProperty(cx, node, descriptors, key));
    }
    return made;
  },
  *getPrototypeOf(cx, node, self, [value]) { return isThing(value) ? value.proto : cx.agent.realm.protoOf(value); },
  *setPrototypeOf(cx, node, self, [value, proto]) {
    value.proto = proto;
    if (proto !== null && !proto.isBuiltIn) link(cx, node, value, "prototype", proto);
    return value;
  },
  *fromEntries(cx, node, self, [entries]) {
    const made = newObject(cx, node);
    yield* iterate(cx, node, entries, function* (pair) {
      define(cx, node, made, keyOf(yield* getProperty(cx, node, pair, "0")), yield* getProperty(cx, node, pair, "1"));
    });
    return made;
  },
  *getOwnPropertyNames(cx, node, self, [value]) { return newArray(cx, node, [...ownKeys(value), ...(value.items ? ["length"] : [])]); },
  *getOwnPropertySymbols(cx, node, self, [value]) { return newArray(cx, node, symbolKeys(value)); },
  *hasOwn(cx, node, self, [value, key]) { return ownProperty(value, keyOf(key)) !== undefined; },
  *defineProperty(cx, node, self, [value, key, descriptor]) {
    yield* describe(cx, node, value, keyOf(key), descriptor);
    return value;
  },
};

const methods = {
  *hasOwnProperty(cx, node, self, [key]) { return ownProperty(self, keyOf(key)) !== undefined; },
  *isPrototypeOf(cx, node, self, [value]) {
    for (let owner = isThing(value) ? value.proto : null; owner !== null; owner = owner.proto) if (owner === self) return true;
    return false;
  },
  *toString(cx, node, self) {
    if (self === undefined || self === null) return self === null ? "[object Null]" : "[object Undefined]";
    const tag = isThing(self) ? yield* getProperty(cx, node, self, KNOWN.toStringTag) : undefined;
    const kind = { function: "Function", array: "Array", error: "Error" }[self?.kind] ?? "Object";
    return `[object ${typeof tag === "string" ? tag : kind}]`;
  },
  *toLocaleString(cx, node, self) { return yield* toText(cx, node, self); },
  *valueOf(cx, node, self) { return self; },
};

function bound(cx, node, callee, [self, ...first]) {
  const { realm } = cx.agent;
  const made = realm.native(`bound ${callee.properties.get("name")?.value ?? ""}`, function* (inner, place, _, values) {
    return yield* call(inner, place, callee, self, [...first, ...values]);
  });
  made.isBuiltIn = false;
  for (const [place, value] of [callee, self, ...first].entries()) {
    if (hasIdentity(value)) link(cx, node, made, `bound_${place}`, value);
  }
  return made;
}

const ofFunctions = {
  *call(cx, node, self, [that, ...values]) { return yield* call(cx, node, self, that, values); },
  *apply(cx, node, self, [that, list]) {
    const values = [];
    if (list) yield* iterate(cx, node, list, function* (value) { values.push(value); });
    return yield* call(cx, node, self, that, values);
  },
  *bind(cx, node, self, values) { return bound(cx, node, self, values); },
  *toString(cx, node, self) { return self.node ? cx.agent.world.source.slice(self.node.start, self.node.end) : "function () { [native code] }"; },
};

function installSymbol(realm) {
  const symbol = realm.define("Symbol", realm.native("Symbol", function* (cx, node, self, [description], newTarget) {
    if (newTarget !== undefined) raise(cx, node, "TypeError", "Symbol is not a constructor");
    return cx.make(node, new Sym(description === undefined ? undefined : yield* toText(cx, node, description)), ["symbol"]);
  }, { isConstructor: true }));
  for (const [name, value] of Object.entries(KNOWN)) realm.constant(symbol, name, value);
  const { registered } = realm.agent.world;
  realm.methods(symbol, {
    *for(cx, node, self, [value]) {
      const text = yield* toText(cx, node, value);
      if (!registered.has(text)) registered.set(text, new Sym(text, { registered: true }));
      return registered.get(text);
    },
    *keyFor(cx, node, self, [value]) { return value.registered ? value.description : undefined; },
  });
  realm.symbolFor = (text) => registered.get(text) ?? registered.set(text, new Sym(text, { registered: true })).get(text);
  realm.methods(realm.protos.symbol, { *toString(cx, node, self) { return `Symbol(${self.description ?? ""})`; } });
  realm.getter(realm.protos.symbol, "description", function* (cx, node, self) { return self.description; });
}

export function installObjects(realm) {
  const object = realm.constructorOf("Object", realm.protos.object, function* (cx, node, self, [value]) {
    return isThing(value) ? value : newObject(cx, node);
  });
  realm.methods(object, statics);
  realm.methods(realm.protos.object, methods);
  realm.constructorOf("Function", realm.protos.function, function* (cx, node) {
    throw new ScriptFault("new Function is not taken: the script must be there as a whole", node);
  });
  realm.methods(realm.protos.function, ofFunctions);
  installSymbol(realm);
  const reflect = realm.define("Reflect", realm.plainObject());
  realm.methods(reflect, {
    *ownKeys(cx, node, self, [value]) {
      if (!isThing(value)) raise(cx, node, "TypeError", "Reflect.ownKeys called on non-object");
      return newArray(cx, node, [...ownKeys(value), ...symbolKeys(value)]);
    },
    *has(cx, node, self, [value, key]) { return findProperty(value, keyOf(key)) !== null; },
    *get(cx, node, self, [value, key]) { return yield* getProperty(cx, node, value, keyOf(key)); },
    *deleteProperty(cx, node, self, [value, key]) { return yield* deleteProperty(cx, node, value, keyOf(key)); },
    getPrototypeOf: statics.getPrototypeOf,
  });
}

