// Generators, of both kinds, and for-await.

import { awaited, newPromise, proceed, promiseOf, reject, resolve } from "./promises.mjs";
import { call, evaluate, evaluators, needing, raise } from "./core.mjs";
import { Held, thrownOf } from "./bindings.mjs";
import { Coroutine, goingOn } from "./coroutines.mjs";
import { Returned } from "./faults.mjs";
import { bindParameters, leave, newInstance, runBody } from "./functions.mjs";
import { closing, iterate } from "./iteration.mjs";
import { getProperty } from "./properties.mjs";
import { KNOWN, isCallable, isInPlan, isThing } from "./values.mjs";

/** Begins a call of a generator: it runs when it is asked for its first value. */
function* beginGenerator(cx, inner, node, callee, values) {
  const isAsync = callee.node.async;
  const made = newInstance(cx, node, callee, isAsync ? "asyncGenerator" : "generator");
  callee.complete?.("prototype");
  if (isAsync) inner.guards += 1;
  yield* bindParameters(cx, inner, node, callee, values);
  made.coroutine = new Coroutine((function* () {
    try {
      return needed(inner, yield* runBody(inner, callee.node));
    } catch (signal) {
      if (!(signal instanceof Returned)) throw signal;
      needed(inner, signal.value);
      signal.held?.end(callee.node, inner.writer);
      return signal.value;
    } finally {
      leave(inner, callee.node, cx.writer);
    }
  })());
  Object.assign(made, { state: "new", inner, body: callee.node, requests: [] });
  return made;
}

/** The last value is needed until the caller has it: the generator's variables end before. */
function needed({ writer }, value) {
  writer.need(value);
  return value;
}

/** What the caller keeps of a value that the generator gave: the generator's temporaries end when it goes on. */
function keep(cx, node, value) {
  if (isInPlan(value)) cx.do(node, ["copy", cx.writer.temporary(cx.temporaries), cx.operand(node, value)]);
  return value;
}

/** Lets a generator go on: `how` is next, throw or return. */
function* resume(cx, node, generator, how, value) {
  if (generator.state === "running") raise(cx, node, "TypeError", "Generator is already running");
  if (generator.state === "new" && how !== "next") finish(cx, generator);
  if (generator.state === "done") {
    if (how === "throw") throw thrownOf(cx, node, value);
    return { value: how === "return" ? value : undefined, done: true };
  }
  generator.state = "running";
  generator.inner.caller = cx;
  try {
    const step = yield* goingOn(generator.coroutine, { how, value });
    generator.state = step.done ? "done" : "waiting";
    const given = keep(cx, node, step.done ? step.value : step.value.yielded);
    if (step.done) cx.writer.needNoMore(given, cx.temporaries);
    return { value: given, done: step.done };
  } catch (error) {
    generator.state = "done";
    throw error;
  }
}

function finish(cx, generator) {
  generator.state = "done";
  leave(generator.inner, generator.body, cx.writer);
}

function* yielding(node, cx) {
  if (node.delegate) return yield* delegating(node, cx);
  const value = node.argument ? yield* evaluate(node.argument, cx) : undefined;
  return received(node, cx, yield { yielded: cx.callee.node.async ? yield* awaited(cx, node, value) : value, node });
}

function received(node, cx, { how, value }) {
  if (how === "throw") throw thrownOf(cx, node, value);
  if (how === "return") throw new Returned(value);
  return value;
}

function* delegating(node, cx) {
  const source = yield* evaluate(node.argument, cx);
  if (source?.kind === "generator" || (source?.kind === "asyncGenerator" && cx.callee.node.async)) {
    return yield* needing(cx, source, () => passing(node, cx, source));
  }
  if (cx.callee.node.async) {
    yield* iterateAsync(cx, node, source, function* (value) { received(node, cx, yield { yielded: value, node }); });
    return undefined;
  }
  yield* iterate(cx, node, source, function* (value) { received(node, cx, yield { yielded: value, node }); });
  return undefined;
}

/** What a generator answers. One that waits is waited for. Where one that waits delegates to one that does not, the value is waited
    for, and then what stands for its step. */
function* answered(node, cx, generator, { how, value }) {
  if (generator.kind === "asyncGenerator") {
    const step = yield* awaited(cx, node, yield* request(cx, node, generator, how, value));
    return { value: yield* getProperty(cx, node, step, "value"), done: yield* getProperty(cx, node, step, "done") };
  }
  const step = yield* resume(cx, node, generator, how, value);
  return cx.callee.node.async ? { ...step, value: yield* awaited(cx, node, yield* awaited(cx, node, step.value)) } : step;
}

/** What a generator is told, the one to which it delegates is told. */
function* passing(node, cx, generator) {
  let told = { how: "next" };
  for (;;) {
    const { value, done } = yield* answered(node, cx, generator, told);
    if (done && told.how === "return") throw new Returned(value, new Held(node, cx.writer, "returned", value, cx.temporaries));
    if (done) return value;
    told = yield { yielded: value, node };
  }
}

evaluators.YieldExpression = yielding;

// Generators that wait

/** Each request of an async generator has a promise; they are answered one after the other. */
function* request(cx, node, generator, how, value) {
  const promise = newPromise(cx.agent);
  generator.requests.push({ promise, how, value, node });
  if (generator.requests.length === 1) yield* answerNext(cx, generator);
  return promise;
}

function* answerNext(cx, generator) {
  const { promise, how, value, node } = generator.requests[0];
  const next = function* (inner) { if (generator.requests.length > 0) yield* answerNext(inner, generator); };
  const give = function* (inner, found, isDone) {
    generator.requests.shift();
    yield* resolve(inner, node, promise, inner.agent.realm.stepResult(inner, node, found, isDone));
    yield* next(inner);
  };
  const refuse = function* (inner, error) {
    generator.requests.shift();
    reject(inner, node, promise, error);
    yield* next(inner);
  };
  if (generator.state === "new" && how !== "next") finish(cx, generator);
  if (generator.state === "done") {
    if (how === "throw") yield* refuse(cx, value);
    else yield* give(cx, how === "return" ? value : undefined, true);
    return;
  }
  generator.state = "waiting";
  yield* proceed(cx, generator.coroutine, {
    resume: { how, value },
    *yielded(inner, found) { yield* give(inner, found, false); },
    *ended(found, inner) {
      generator.state = "done";
      yield* give(inner, found, true);
      inner.writer.needNoMore(found, inner.temporaries);
    },
    *failed(thrown, inner) {
      generator.state = "done";
      yield* refuse(inner, thrown.value);
    },
  });
}

/** Calls `visit` with each value of an iterator that may wait. */
function* iterateAsync(cx, node, source, visit) {
  const make = isThing(source) ? yield* getProperty(cx, node, source, KNOWN.asyncIterator) : undefined;
  if (!isCallable(make)) {
    yield* iterate(cx, node, source, function* (value) { return yield* visit(yield* awaited(cx, node, value)); });
    return;
  }
  const iterator = yield* call(cx, node, make, source, []);
  const close = function* () {
    const end = yield* getProperty(cx, node, iterator, "return");
    if (isCallable(end)) yield* awaited(cx, node, yield* call(cx, node, end, iterator, []));
  };
  for (;;) {
    const promise = yield* promiseOf(cx, node, yield* call(cx, node, yield* getProperty(cx, node, iterator, "next"), iterator, []));
    const step = yield* awaited(cx, node, promise);
    if (yield* getProperty(cx, node, step, "done")) return;
    if (yield* closing(cx, visit, yield* getProperty(cx, node, step, "value"), close)) return;
  }
}

export function installGenerators(realm) {
  const { generator, asyncGenerator } = realm.protos;
  const method = (how) => function* (cx, node, self, [value]) {
    const step = yield* resume(cx, node, self, how, value);
    return realm.stepResult(cx, node, step.value, step.done);
  };
  const itself = function* (cx, node, self) { return self; };
  realm.methods(generator, { next: method("next"), return: method("return"), throw: method("throw"), itself });
  realm.iterates(generator, "itself");
  const waiting = (how) => function* (cx, node, self, [value]) { return yield* request(cx, node, self, how, value); };
  realm.methods(asyncGenerator, { next: waiting("next"), return: waiting("return"), throw: waiting("throw"), itself });
  asyncGenerator.properties.set(KNOWN.asyncIterator, asyncGenerator.properties.get("itself"));
  Object.assign(realm, { iterateAsync, beginGenerator, resumeGenerator: resume });
}

