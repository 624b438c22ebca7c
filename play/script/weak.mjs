// WeakRef, WeakMap, WeakSet and FinalizationRegistry. What their methods answer the plan's commands say.

import { call, raise } from "./core.mjs";
import { ScriptFault } from "./faults.mjs";
import { link, linkPrototype, newInstance } from "./functions.mjs";
import { iterate } from "./iteration.mjs";
import { getProperty } from "./properties.mjs";
import { shown } from "./saying.mjs";
import { canBeHeldWeakly, isCallable, isInPlan } from "./values.mjs";

/** A command that the host refuses: it is written, and the script may catch what it throws. */
function refused(cx, node, words, error, message) {
  const operands = words.slice(1).map((value) => (value === NEW ? cx.writer.temporary(cx.temporaries) : cx.operand(node, value)));
  cx.refuse(node, [words[0], ...operands], error);
  return raise(cx, node, "TypeError", message);
}

/** In the place of an operand: the variable that the command would assign. */
const NEW = {};
const HELD_WEAKLY = "TypeError: cannot be held weakly";
const noToken = (token) => `Invalid unregisterToken ('${shown(token)}')`;
const KINDS = {
  weakref: "WeakRef", weakmap: "WeakMap", weakset: "WeakSet", registry: "FinalizationRegistry",
};

/** CanBeHeldWeakly. A view can't be told from its buffer in a plan. */
function isWeakly(node, value) {
  if (value?.stands) throw new ScriptFault("a view is not held weakly here: in a plan it is its buffer; hold the buffer", node);
  if (value?.known) throw new ScriptFault("a symbol of the language is not held weakly here: a plan has none of these", node);
  return canBeHeldWeakly(value);
}

/** That `this` is of a kind. */
function checkThis(cx, node, self, kind, method) {
  if (self?.kind !== kind) {
    raise(cx, node, "TypeError", `Method ${KINDS[kind]}.prototype.${method} called on incompatible receiver`);
  }
}

function made(cx, node, newTarget, kind, words) {
  if (newTarget === undefined) raise(cx, node, "TypeError", `Constructor ${KINDS[kind]} requires 'new'`);
  const thing = newInstance(cx, node, newTarget, kind);
  cx.make(node, thing, words);
  linkPrototype(cx, node, thing);
  return thing;
}

function installWeakRef(realm) {
  const proto = realm.protos.weakref;
  realm.constructorOf("WeakRef", proto, function* (cx, node, self, [target], newTarget) {
    if (!isWeakly(node, target)) refused(cx, node, ["weakref", NEW, target], HELD_WEAKLY, "WeakRef: invalid target");
    return made(cx, node, newTarget, "weakref", ["weakref", cx.operand(node, target)]);
  });
  realm.methods(proto, {
    *deref(cx, node, self) {
      checkThis(cx, node, self, "weakref", "deref");
      return cx.ask(node, ["deref", cx.operand(node, self)]);
    },
  });
  realm.tagged(proto, "WeakRef");
}

function installWeakMap(realm) {
  const proto = realm.protos.weakmap;
  realm.constructorOf("WeakMap", proto, function* (cx, node, self, [entries], newTarget) {
    const map = made(cx, node, newTarget, "weakmap", ["weakmap"]);
    if (entries !== undefined && entries !== null) {
      yield* iterate(cx, node, entries, function* (pair) {
        const [key, value] = [yield* getProperty(cx, node, pair, "0"), yield* getProperty(cx, node, pair, "1")];
        yield* call(cx, node, yield* getProperty(cx, node, map, "set"), map, [key, value]);
      });
    }
    return map;
  });
  const ask = (word, otherwise) => function* (cx, node, self, [key]) {
    checkThis(cx, node, self, "weakmap", word.slice(2));
    if (!isWeakly(node, key)) return otherwise;
    return cx.ask(node, [word, cx.operand(node, self), cx.operand(node, key)]);
  };
  realm.methods(proto, {
    *set(cx, node, self, [key, value]) {
      checkThis(cx, node, self, "weakmap", "set");
      if (!isWeakly(node, key)) {
        refused(cx, node, ["wmset", self, key, value], HELD_WEAKLY, `Invalid value used as weak map key`);
      }
      cx.do(node, ["wmset", ...[self, key, value].map((one) => cx.operand(node, one))]);
      return self;
    },
    get: ask("wmget", undefined), has: ask("wmhas", false), delete: ask("wmdelete", false),
  });
  realm.tagged(proto, "WeakMap");
}

function installWeakSet(realm) {
  const proto = realm.protos.weakset;
  realm.constructorOf("WeakSet", proto, function* (cx, node, self, [values], newTarget) {
    const set = made(cx, node, newTarget, "weakset", ["weakset"]);
    if (values !== undefined && values !== null) {
      yield* iterate(cx, node, values, function* (value) {
        yield* call(cx, node, yield* getProperty(cx, node, set, "add"), set, [value]);
      });
    }
    return set;
  });
  const ask = (word) => function* (cx, node, self, [value]) {
    checkThis(cx, node, self, "weakset", word.slice(2));
    return isWeakly(node, value) ? cx.ask(node, [word, cx.operand(node, self), cx.operand(node, value)]) : false;
  };
  realm.methods(proto, {
    *add(cx, node, self, [value]) {
      checkThis(cx, node, self, "weakset", "add");
      if (!isWeakly(node, value)) refused(cx, node, ["wsadd", self, value], HELD_WEAKLY, "Invalid value used in weak set");
      cx.do(node, ["wsadd", cx.operand(node, self), cx.operand(node, value)]);
      return self;
    },
    has: ask("wshas"), delete: ask("wsdelete"),
  });
  realm.tagged(proto, "WeakSet");
}

function installRegistry(realm) {
  const proto = realm.protos.registry;
  realm.constructorOf("FinalizationRegistry", proto, function* (cx, node, self, [callback], newTarget) {
    if (!isCallable(callback)) raise(cx, node, "TypeError", "FinalizationRegistry: cleanup must be callable");
    const wish = callback.properties.get("name")?.value || "cleanup";
    const thing = made(cx, node, newTarget, "registry", ["registry", cx.agent.addCallback(wish)]);
    cx.agent.addRegistry(thing, callback, node);
    link(cx, node, thing, "callback", callback);
    // The host may call it when the script has the registry no more.
    if (isInPlan(callback)) cx.writer.assign(node, cx.writer.variable("callback"), callback, cx.temporaries);
    return thing;
  });
  realm.methods(proto, {
    *register(cx, node, self, [target, held, token]) {
      checkThis(cx, node, self, "registry", "register");
      const words = ["register", self, target, held, ...(token === undefined ? [] : [token])];
      if (!isWeakly(node, target)) {
        refused(cx, node, words, HELD_WEAKLY, "FinalizationRegistry.prototype.register: invalid target");
      }
      if (target === held) {
        const message = "FinalizationRegistry.prototype.register: target and holdings must not be same";
        refused(cx, node, words, "TypeError: target and held value are the same", message);
      }
      // A plan has undefined for null, which is no token and not refused.
      if (token === null) raise(cx, node, "TypeError", noToken(token));
      if (token !== undefined && !isWeakly(node, token)) refused(cx, node, words, HELD_WEAKLY, noToken(token));
      const registry = cx.agent.registryFor(cx, node, self);
      cx.do(node, ["register", ...[registry, ...words.slice(2)].map((value) => cx.operand(node, value))]);
      return undefined;
    },
    *unregister(cx, node, self, [token]) {
      checkThis(cx, node, self, "registry", "unregister");
      if (!isWeakly(node, token)) refused(cx, node, ["unregister", NEW, self, token], HELD_WEAKLY, noToken(token));
      let found = false;
      for (const registry of [self, ...self.more]) {
        found = cx.ask(node, ["unregister", cx.operand(node, registry), cx.operand(node, token)]) || found;
      }
      return found;
    },
  });
  realm.tagged(proto, "FinalizationRegistry");
}

/** Installs what is weak, and `gc()`. */
export function installWeak(realm) {
  for (const install of [installWeakRef, installWeakMap, installWeakSet, installRegistry]) install(realm);
  const collecting = (word) => function* (cx, node) {
    if (cx.agent.isCleaning) {
      throw new ScriptFault("gc() in a callback is not taken: plans collect in jobs alone; await turn() first", node);
    }
    if (cx.writer.machine.open) {
      throw new ScriptFault("a later collection is open until the job ends; a plan refuses another one", node);
    }
    if (word === "collectlater") cx.agent.world.needVersion(2);
    cx.do(node, [word]);
  };
  realm.define("gc", realm.native("gc", collecting("collect"), { length: 0 }));
  realm.define("collectLater", realm.native("collectLater", collecting("collectlater"), { length: 0 }));
}

