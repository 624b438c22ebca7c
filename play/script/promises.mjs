// Promises, async functions and generators: what waits, and what goes on. What waits for a promise goes on in the same job, as a
// microtask does.

import { call, evaluate, evaluators } from "./core.mjs";
import { Held, thrownOf } from "./bindings.mjs";
import { Coroutine, goingOn } from "./coroutines.mjs";
import { Thrown } from "./faults.mjs";
import { bindParameters, leave, runBody } from "./functions.mjs";
import { getProperty } from "./properties.mjs";
import { Thing, isCallable, isInPlan, isThing } from "./values.mjs";

export function newPromise(agent) {
  const made = new Thing("promise", agent.realm.protos.promise);
  return Object.assign(made, { state: "pending", value: undefined, waiting: [], reactions: 0, isHandled: false });
}

/** Resolves a promise: with a promise or another thenable it becomes what that becomes. */
export function* resolve(cx, node, promise, value) {
  if (promise.isResolved) return;
  promise.isResolved = true;
  if (value === promise) {
    return settle(cx, node, promise, "rejected", cx.agent.realm.error("TypeError", "Chaining cycle detected for promise #<Promise>"));
  }
  if (value?.kind === "promise") return follow(cx, node, promise, value);
  const then = isThing(value) ? yield* getProperty(cx, node, value, "then") : undefined;
  if (!isCallable(then)) return settle(cx, node, promise, "fulfilled", value);
  const { resolving, rejecting } = resolvers(cx, promise);
  cx.agent.enqueue(cx, node, [value, then, resolving, rejecting], function* (inner) {
    try {
      yield* call(inner, node, then, value, [resolving, rejecting]);
    } catch (error) {
      if (!(error instanceof Thrown)) throw error;
      yield* call(inner, node, rejecting, undefined, [error.value]);
      error.held?.end(node, inner.writer);
    }
  });
  return undefined;
}

/** A promise becomes what another becomes, two microtasks later, as the standard has it. */
function follow(cx, node, promise, other) {
  const become = (state) => function* (inner, value) { settle(inner, node, promise, state, value); };
  cx.agent.enqueue(cx, node, [other, promise], function* (inner) {
    subscribe(inner, node, other, { fulfilled: become("fulfilled"), rejected: become("rejected") }, [promise]);
  });
}

export function reject(cx, node, promise, value) {
  if (promise.isResolved) return;
  promise.isResolved = true;
  settle(cx, node, promise, "rejected", value);
}

/** The two functions that a promise's executor gets. */
export function resolvers(cx, promise) {
  let isDone = false;
  const once = (act) => cx.agent.realm.native("", function* (inner, node, self, [value]) {
    if (isDone) return;
    isDone = true;
    promise.isResolved = false;
    yield* act(inner, node, value);
  }, { holds: promise });
  return {
    resolving: once((inner, node, value) => resolve(inner, node, promise, value)),
    rejecting: once(function* (inner, node, value) { reject(inner, node, promise, value); }),
  };
}

/** A promise gets its value. It holds it, unless nothing but what waits for it can ever ask for it. */
function settle(cx, node, promise, state, value) {
  const waiting = promise.waiting.splice(0);
  Object.assign(promise, { state, value });
  if (isInPlan(value) && (promise.number > 0 || promise.holders.size > 0 || waiting.length === 0)) {
    cx.writer.hold(node, promise, "value", value, cx.temporaries);
  }
  for (const one of waiting) cx.agent.enqueue(cx, node, [value, ...one.holds], (inner) => one[state](inner, value));
  for (let place = 1; place <= promise.reactions; place += 1) {
    cx.writer.drop(node, promise, `reaction_${place}`, cx.temporaries);
  }
  if (state === "rejected" && !promise.isHandled) cx.agent.rejected.add({ promise, node });
}

/** Something waits for a promise: `fulfilled` and `rejected` are generators, which go on with the value in a microtask. Until then
    the promise holds what it will call. */
export function subscribe(cx, node, promise, reactions, holds = []) {
  promise.isHandled = true;
  const { state, value } = promise;
  if (state !== "pending") {
    cx.agent.enqueue(cx, node, [value, ...holds], (inner) => reactions[state](inner, value));
    return;
  }
  promise.waiting.push({ ...reactions, holds });
  for (const held of holds) cx.writer.hold(node, promise, `reaction_${(promise.reactions += 1)}`, held, cx.temporaries);
}

/** Any value as a promise. */
export function* promiseOf(cx, node, value) {
  if (value?.kind === "promise") return value;
  const promise = newPromise(cx.agent);
  yield* resolve(cx, node, promise, value);
  return promise;
}

/** Waits for a value. What holds it afterwards is a temporary of the statement that waited. */
export function* awaited(cx, node, value) {
  const promise = yield* promiseOf(cx, node, value);
  const { found, error, carried } = yield { awaits: promise, node };
  cx.temporaries.push(...carried.splice(0));
  if (error) throw thrownOf(cx, node, found);
  return found;
}

evaluators.AwaitExpression = function* (node, cx) {
  return yield* awaited(cx, node, yield* evaluate(node.argument, cx));
};

/** Lets a coroutine go on until it waits again, or ends. `ended` gets its value, `failed` what it threw: all are generators. */
export function* proceed(cx, coroutine, { resume, ended, failed, yielded }) {
  let step;
  try {
    step = yield* goingOn(coroutine, resume);
  } catch (error) {
    if (!(error instanceof Thrown)) throw error;
    return yield* failed(error, cx);
  }
  if (step.done) return yield* ended(step.value, cx);
  if ("yielded" in step.value) return yield* yielded(cx, step.value.yielded);
  const { awaits, node } = step.value;
  const go = (error) => function* (inner, found) {
    yield* proceed(inner, coroutine, { resume: { found, error, carried: inner.temporaries }, ended, failed, yielded });
  };
  return subscribe(cx, node, awaits, { fulfilled: go(false), rejected: go(true) });
}

/** A call that never waited has ended before its caller has the promise: from now on a temporary of the caller holds that. */
function giveOver({ writer, temporaries }, node, promise, held) {
  if (isInPlan(promise)) {
    writer.do(node, ["copy", writer.temporary(temporaries), [...promise.variables][0]], undefined, { temporary: true });
  }
  held.end(node, writer);
}

/** A call of an async function: it runs at once up to where it first waits, and gives a promise. */
function* beginAsync(cx, inner, node, callee, values) {
  const promise = newPromise(cx.agent);
  const held = new Held(node, cx.writer, "promise", promise, cx.temporaries);
  const state = { hasEnded: false, isGiven: false };
  const finish = () => {
    state.hasEnded = true;
    if (state.isGiven) held.end(node, cx.writer);
  };
  inner.guards += 1;
  const coroutine = new Coroutine((function* () {
    try {
      yield* bindParameters(cx, inner, node, callee, values);
      const value = yield* runBody(inner, callee.node);
      const end = { start: callee.node.end - 1, end: callee.node.end };
      yield* resolve(inner, end, promise, value);
    } finally {
      leave(inner, callee.node, cx.writer);
    }
  })());
  yield* proceed(cx, coroutine, {
    *ended() { finish(); },
    *failed(thrown, there) {
      reject(there, thrown.node, promise, thrown.value);
      thrown.held?.end(thrown.node, cx.writer);
      finish();
    },
  });
  state.isGiven = true;
  if (state.hasEnded) giveOver(cx, node, promise, held);
  return promise;
}

/** Begins a call of an async function or of a generator. */
export function* begin(cx, inner, node, callee, values) {
  if (callee.node.generator) return yield* cx.agent.realm.beginGenerator(cx, inner, node, callee, values);
  return yield* beginAsync(cx, inner, node, callee, values);
}
