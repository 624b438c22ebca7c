// Map and Set. Each is an object of the plan that holds its keys and values as properties.

import { call, raise } from "./core.mjs";
import { linkPrototype, newInstance } from "./functions.mjs";
import { eachPair, iterate, partOf } from "./iteration.mjs";
import { getProperty } from "./properties.mjs";
import { hasIdentity, isThing } from "./values.mjs";

/** The script's key of an entry: 0 for -0. */
const keyOf = (key) => (Object.is(key, -0) ? 0 : key);

function pairsOf(cx, node, self, kind, method) {
  if (self?.kind !== kind) {
    raise(cx, node, "TypeError", `Method ${kind === "map" ? "Map" : "Set"}.prototype.${method} called on incompatible receiver`);
  }
  return self.pairs;
}

/** Puts an entry in. A function that was no object of the plan becomes one as a key, since the names of an entry have its number. */
function put(cx, node, self, key, value) {
  if (isThing(key) && key.number === 0) cx.operand(node, key);
  const names = cx.writer.keys.entry(key);
  if (self.kind === "map" && hasIdentity(key) && !self.pairs.has(key)) {
    cx.writer.hold(node, self, names.key, key, cx.temporaries);
  }
  cx.writer.hold(node, self, names.value, self.kind === "map" ? value : key, cx.temporaries);
  if (self.pairs.has(key)) self.pairs.get(key).value = value;
  else self.pairs.set(key, { value });
}

function remove(cx, node, self, key) {
  if (!self.pairs.has(key)) return false;
  const names = cx.writer.keys.entry(key);
  for (const name of [names.key, names.value]) cx.writer.drop(node, self, name, cx.temporaries);
  return self.pairs.delete(key);
}

function made(cx, node, newTarget, kind) {
  if (newTarget === undefined) raise(cx, node, "TypeError", `Constructor ${kind === "map" ? "Map" : "Set"} requires 'new'`);
  const thing = Object.assign(newInstance(cx, node, newTarget, kind), { pairs: new Map() });
  cx.make(node, thing);
  linkPrototype(cx, node, thing);
  return thing;
}

const iterating = (kind) => Object.fromEntries(["keys", "values", "entries"].map((part) => [part, function* (cx, node, self) {
  const entries = pairsOf(cx, node, self, kind, part).entries();
  const wanted = kind === "set" && part === "values" ? "keys" : part;
  return cx.agent.realm.iterator(cx, node, self, (inner) => {
    const { done, value } = entries.next();
    return done ? undefined : { value: partOf(inner, node, self, value[0], value[1], wanted) };
  });
}]));

const shared = (kind) => ({
  *has(cx, node, self, [key]) { return pairsOf(cx, node, self, kind, "has").has(keyOf(key)); },
  *delete(cx, node, self, [key]) {
    pairsOf(cx, node, self, kind, "delete");
    return remove(cx, node, self, keyOf(key));
  },
  *clear(cx, node, self) {
    for (const key of [...pairsOf(cx, node, self, kind, "clear").keys()]) remove(cx, node, self, key);
  },
  *forEach(cx, node, self, [callback, that]) {
    pairsOf(cx, node, self, kind, "forEach");
    yield* eachPair(cx, node, self, "entries", function* (pair) {
      const [key, value] = pair.items;
      yield* call(cx, node, callback, that, kind === "map" ? [value, key, self] : [key, key, self]);
    });
  },
});

function installMap(realm) {
  const proto = realm.protos.map;
  realm.constructorOf("Map", proto, function* (cx, node, self, [entries], newTarget) {
    const map = made(cx, node, newTarget, "map");
    if (entries === undefined || entries === null) return map;
    yield* iterate(cx, node, entries, function* (pair) {
      if (!isThing(pair)) raise(cx, node, "TypeError", `Iterator value ${String(pair)} is not an entry object`);
      const [key, value] = [yield* getProperty(cx, node, pair, "0"), yield* getProperty(cx, node, pair, "1")];
      yield* call(cx, node, yield* getProperty(cx, node, map, "set"), map, [key, value]);
    });
    return map;
  });
  realm.methods(proto, {
    *get(cx, node, self, [key]) {
      const entry = pairsOf(cx, node, self, "map", "get").get(keyOf(key));
      return entry === undefined ? undefined : cx.writer.fetch(node, self, cx.writer.keys.entry(keyOf(key)).value, entry.value, cx.temporaries);
    },
    *set(cx, node, self, [key, value]) {
      pairsOf(cx, node, self, "map", "set");
      put(cx, node, self, keyOf(key), value);
      return self;
    },
    ...shared("map"), ...iterating("map"),
  });
  realm.iterates(proto, "entries");
}

function installSet(realm) {
  const proto = realm.protos.set;
  realm.constructorOf("Set", proto, function* (cx, node, self, [values], newTarget) {
    const set = made(cx, node, newTarget, "set");
    if (values === undefined || values === null) return set;
    yield* iterate(cx, node, values, function* (value) {
      yield* call(cx, node, yield* getProperty(cx, node, set, "add"), set, [value]);
    });
    return set;
  });
  realm.methods(proto, {
    *add(cx, node, self, [value]) {
      if (!pairsOf(cx, node, self, "set", "add").has(keyOf(value))) put(cx, node, self, keyOf(value), keyOf(value));
      return self;
    },
    ...shared("set"), ...iterating("set"),
  });
  realm.iterates(proto, "values");
}

export function installCollections(realm) {
  installMap(realm);
  installSet(realm);
  for (const [kind, tag] of [["map", "Map"], ["set", "Set"]]) {
    realm.getter(realm.protos[kind], "size", function* (cx, node, self) { return pairsOf(cx, node, self, kind, "size").size; });
    realm.tagged(realm.protos[kind], tag);
  }
  realm.methods(realm.protos.iterator, {
    *next(cx, node, self) {
      const step = self.step?.(cx);
      return realm.stepResult(cx, node, step?.value, step === undefined);
    },
    *itself(cx, node, self) { return self; },
  });
  realm.iterates(realm.protos.iterator, "itself");
}
