// Promise, as a script has it.

import { thrownOf } from "./bindings.mjs";
import { call, guarded, raise } from "./core.mjs";
import { Thrown } from "./faults.mjs";
import { iterate } from "./iteration.mjs";
import { newPromise, promiseOf, reject, resolve, resolvers, subscribe } from "./promises.mjs";
import { define, newArray, setItem } from "./properties.mjs";
import { isCallable } from "./values.mjs";

/** The function of a reaction: what it gives or throws is what the derived promise becomes. */
const reaction = (node, callback, derived, otherwise) => function* (cx, value) {
  if (!isCallable(callback)) return yield* otherwise(cx, node, derived, value);
  try {
    yield* resolve(cx, node, derived, yield* call(cx, node, callback, undefined, [value]));
  } catch (error) {
    if (!(error instanceof Thrown)) throw error;
    reject(cx, node, derived, error.value);
    error.held?.end(node, cx.writer);
  }
  return undefined;
};

const rejecting = function* (cx, node, derived, value) { reject(cx, node, derived, value); };

function then(cx, node, promise, [fulfilled, rejected]) {
  const derived = newPromise(cx.agent);
  subscribe(cx, node, promise, {
    fulfilled: reaction(node, fulfilled, derived, resolve),
    rejected: reaction(node, rejected, derived, rejecting),
  }, [...[fulfilled, rejected].filter(isCallable), derived]);
  return derived;
}

const methods = {
  *then(cx, node, self, values) { return then(cx, node, self, values); },
  *catch(cx, node, self, [rejected]) { return then(cx, node, self, [undefined, rejected]); },
  *finally(cx, node, self, [callback]) {
    const { realm } = cx.agent;
    const after = (goOn) => realm.native("", function* (inner, place, _, [value]) {
      const going = realm.native("", function* (there) { return yield* goOn(value, place, there); });
      inner.writer.hold(place, going, "value", value, inner.temporaries);
      inner.writer.need(going);
      const waits = yield* promiseOf(inner, place, yield* call(inner, place, callback, undefined, []));
      inner.writer.needNoMore(going, inner.temporaries);
      return then(inner, place, waits, [going]);
    });
    const pass = function* (value) { return value; };
    const fail = function* (value, place, inner) { throw thrownOf(inner, place, value); };
    return then(cx, node, self, [after(pass), after(fail)]);
  },
};

/** A promise of several: `each` says what becomes of the value of one, `none` what it becomes where there is none. */
const combined = ({ fulfilled, rejected, none }) => function* (cx, node, self, [list]) {
  const result = newPromise(cx.agent);
  const promises = [];
  yield* iterate(cx, node, list, function* (value) { promises.push(yield* promiseOf(cx, node, value)); });
  const state = { left: promises.length, values: newArray(cx, node, promises.map(() => undefined)), result };
  cx.writer.hold(node, result, "values", state.values, cx.temporaries);
  for (const [index, promise] of promises.entries()) {
    subscribe(cx, node, promise, {
      fulfilled: function* (inner, value) { yield* fulfilled(inner, node, state, index, value); },
      rejected: function* (inner, value) { yield* rejected(inner, node, state, index, value); },
    }, [result]);
  }
  if (promises.length === 0) yield* none(cx, node, state);
  return result;
};

function* collect(cx, node, state, index, value) {
  setItem(cx, node, state.values, index, value);
  state.left -= 1;
  if (state.left === 0) yield* resolve(cx, node, state.result, state.values);
}

const outcome = (status, key) => function* (cx, node, state, index, value) {
  const made = cx.agent.realm.newObject(cx, node);
  define(cx, node, made, "status", status);
  define(cx, node, made, key, value);
  yield* collect(cx, node, state, index, made);
};

const give = function* (cx, node, { result, values }) { yield* resolve(cx, node, result, values); };
const refuse = function* (cx, node, { result }, index, value) { reject(cx, node, result, value); };
const first = function* (cx, node, { result }, index, value) { yield* resolve(cx, node, result, value); };
const nothing = function* () {};

function* allFailed(cx, node, state) {
  const error = cx.agent.realm.error("AggregateError", "All promises were rejected");
  define(cx, node, error, "errors", state.values, { isEnumerable: false });
  reject(cx, node, state.result, error);
}

const statics = {
  *resolve(cx, node, self, [value]) { return yield* promiseOf(cx, node, value); },
  *reject(cx, node, self, [value]) {
    const promise = newPromise(cx.agent);
    reject(cx, node, promise, value);
    return promise;
  },
  all: combined({ fulfilled: collect, rejected: refuse, none: give }),
  allSettled: combined({ fulfilled: outcome("fulfilled", "value"), rejected: outcome("rejected", "reason"), none: give }),
  race: combined({ fulfilled: first, rejected: refuse, none: nothing }),
  any: combined({
    fulfilled: first,
    rejected: function* (cx, node, state, index, value) {
      setItem(cx, node, state.values, index, value);
      state.left -= 1;
      if (state.left === 0) yield* allFailed(cx, node, state);
    },
    none: allFailed,
  }),
  *withResolvers(cx, node) {
    const promise = newPromise(cx.agent);
    const made = cx.agent.realm.newObject(cx, node);
    const both = resolvers(cx, promise);
    for (const [key, value] of Object.entries({ promise, resolve: both.resolving, reject: both.rejecting })) {
      define(cx, node, made, key, value);
    }
    return made;
  },
};

export function installPromises(realm) {
  const made = realm.constructorOf("Promise", realm.protos.promise, function* (cx, node, self, [executor], newTarget) {
    if (newTarget === undefined) raise(cx, node, "TypeError", "Promise constructor cannot be invoked without 'new'");
    if (!isCallable(executor)) raise(cx, node, "TypeError", `Promise resolver ${String(executor)} is not a function`);
    const promise = newPromise(cx.agent);
    const both = resolvers(cx, promise);
    cx.writer.need(promise);
    try {
      yield* guarded(cx, () => call(cx, node, executor, undefined, [both.resolving, both.rejecting]));
    } catch (error) {
      if (!(error instanceof Thrown)) throw error;
      reject(cx, node, promise, error.value);
      error.held?.end(node, cx.writer);
    } finally {
      cx.writer.needNoMore(promise, cx.temporaries);
    }
    return promise;
  });
  realm.methods(made, statics);
  realm.methods(realm.protos.promise, methods);
  realm.tagged(realm.protos.promise, "Promise");
}

