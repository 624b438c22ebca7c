// What each kind of statement does, and how it ends.

import { evaluate, execute, executors, guarded } from "./core.mjs";
import { Scope, thrownOf } from "./bindings.mjs";
import { Thrown, isSeen } from "./faults.mjs";
import { hoistFunctions } from "./functions.mjs";
import { iterate } from "./iteration.mjs";
import { bindPattern, named } from "./patterns.mjs";
import { enumerableKeys, findProperty } from "./properties.mjs";
import { isInPlan, isThing, planned } from "./values.mjs";

/** Runs something in a scope of its own. */
export function* scoped(node, cx, act) {
  const outer = cx.scope;
  cx.scope = new Scope(outer, cx.agent, cx.agent.world.scopes.get(node)).begin(node, cx.writer);
  let ended;
  try {
    return (ended = yield* act());
  } finally {
    const { scope } = cx;
    cx.scope = outer;
    if (ended?.type === "return") keepReturned(node, cx, scope, ended.value);
    scope.end({ start: node.end - 1, end: node.end }, cx.writer);
  }
}

/** A value that is returned out of a scope, and that only its variables hold, is copied before they are let go. */
function keepReturned(node, cx, scope, given) {
  if (!isInPlan(given)) return;
  const value = planned(given);
  const own = new Set([...scope.bindings.values()].map(({ variable }) => variable));
  if ([...value.variables].some((name) => !own.has(name))) return;
  const kept = cx.writer.temporary(cx.returned);
  cx.writer.do({ start: node.end - 1, end: node.end }, ["copy", kept, cx.operand(node, value)], undefined, { temporary: true });
}

export function* statements(list, cx) {
  hoistFunctions(cx, list);
  for (const one of list) {
    const ended = yield* execute(one, cx);
    if (ended !== undefined) return ended;
  }
  return undefined;
}

function* block(node, cx) {
  return yield* scoped(node, cx, () => statements(node.body, cx));
}

function* expression(node, cx) {
  yield* evaluate(node.expression, cx);
}

function* variables(node, cx) {
  for (const { id, init } of node.declarations) {
    if (init === null && node.kind === "var") continue;
    const value = init === null ? undefined : yield* named(init, cx, id.name);
    yield* bindPattern(id, cx, value, { declares: true });
    cx.writer.endTemporaries(node, cx.temporaries);
  }
}

/** The truth of a condition, whose temporaries are let go before what follows. */
function* test(node, cx) {
  const value = Boolean(yield* evaluate(node, cx));
  cx.writer.endTemporaries(node, cx.temporaries);
  return value;
}

function* branch(node, cx) {
  if (yield* test(node.test, cx)) return yield* execute(node.consequent, cx);
  return node.alternate ? yield* execute(node.alternate, cx) : undefined;
}

// Loops

/** How a loop goes on after its body: `ends` where it does not, with how the loop ended. */
function after(ended, labels) {
  if (ended === undefined) return { ends: false };
  const isMine = ended.label === undefined || labels.includes(ended.label);
  if (ended.type === "continue" && isMine) return { ends: false };
  return { ends: true, ended: ended.type === "break" && isMine ? undefined : ended };
}

function* whileLoop(node, cx, labels = []) {
  while (yield* test(node.test, cx)) {
    const { ends, ended } = after(yield* execute(node.body, cx), labels);
    if (ends) return ended;
  }
  return undefined;
}

function* doLoop(node, cx, labels = []) {
  do {
    const { ends, ended } = after(yield* execute(node.body, cx), labels);
    if (ends) return ended;
  } while (yield* test(node.test, cx));
  return undefined;
}

function* forLoop(node, cx, labels = []) {
  return yield* scoped(node, cx, function* () {
    if (node.init?.type === "VariableDeclaration") yield* execute(node.init, cx);
    else if (node.init) yield* valueOnly(node.init, cx);
    for (;;) {
      if (node.test && !(yield* test(node.test, cx))) return undefined;
      const { ends, ended } = after(yield* execute(node.body, cx), labels);
      if (ends) return ended;
      renew(node, cx);
      if (node.update) yield* valueOnly(node.update, cx);
    }
  });
}

function* valueOnly(node, cx) {
  yield* evaluate(node, cx);
  cx.writer.endTemporaries(node, cx.temporaries);
}

/** Each round has variables of its own, where a function may have captured them. */
function renew(node, cx) {
  if (cx.scope.environment === null) return;
  const old = cx.scope;
  const next = new Scope(old.outer, cx.agent, old.declared).begin(node, cx.writer);
  for (const [name, binding] of next.bindings) {
    const there = old.bindings.get(name);
    if (there.isInitialized) binding.write(node, cx.writer, there.read(node, cx.writer, cx.temporaries), cx.temporaries);
  }
  cx.writer.endTemporaries(node, cx.temporaries);
  old.end({ start: node.end - 1, end: node.end }, cx.writer);
  cx.scope = next;
}

/** The variable of a for-of or for-in loop gets a value. */
function* bindEach({ left }, cx, value) {
  if (left.type === "VariableDeclaration") yield* bindPattern(left.declarations[0].id, cx, value, { declares: true });
  else yield* bindPattern(left, cx, value, { declares: false });
}

/** One round of such a loop, in a scope of its own; the temporaries that it made are let go before the body. */
function* round(node, cx, value, from) {
  return yield* scoped(node, cx, function* () {
    yield* bindEach(node, cx, value);
    cx.writer.endUnneeded(node.left, cx.temporaries, from);
    return yield* execute(node.body, cx);
  });
}

function* forOf(node, cx, labels = []) {
  const source = yield* evaluate(node.right, cx);
  const from = cx.temporaries.length;
  let result;
  const visit = function* (value) {
    const { ends, ended } = after(yield* round(node, cx, value, from), labels);
    result = ended;
    return ends;
  };
  yield* node.await ? cx.agent.realm.iterateAsync(cx, node, source, visit) : iterate(cx, node.right, source, visit);
  return result;
}

function* forIn(node, cx, labels = []) {
  const source = yield* evaluate(node.right, cx);
  const from = cx.temporaries.length;
  const seen = new Set();
  for (let owner = isThing(source) ? source : null; owner !== null; owner = owner.proto) {
    for (const key of enumerableKeys(owner)) {
      if (seen.has(key) || findProperty(source, key) === null) continue;
      seen.add(key);
      const { ends, ended } = after(yield* round(node, cx, key, from), labels);
      if (ends) return ended;
    }
  }
  return undefined;
}

// Jumps

function* returning(node, cx) {
  return { type: "return", value: node.argument ? yield* evaluate(node.argument, cx) : undefined };
}

const jump = (type) => function* (node) {
  return { type, label: node.label?.name };
};

function* labeled(node, cx, labels = []) {
  const names = [...labels, node.label.name];
  const isLoop = /^(For|While|Do|Labeled)/.test(node.body.type);
  const ended = isLoop ? yield* executors[node.body.type](node.body, cx, names) : yield* execute(node.body, cx);
  return ended?.type === "break" && names.includes(ended.label) ? undefined : ended;
}

function* throwing(node, cx) {
  const value = yield* evaluate(node.argument, cx);
  throw thrownOf(cx, node, value);
}

function* trying(node, cx) {
  if (!node.finalizer) return yield* trial(node, cx);
  let ended, signal = null;
  try {
    ended = yield* guarded(cx, () => trial(node, cx));
  } catch (error) {
    if (!isSeen(error)) throw error;
    signal = error;
  }
  const last = yield* execute(node.finalizer, cx);
  if (last === undefined && signal !== null) throw signal;
  // What a finally ends with takes the place of all else.
  signal?.held?.end(node, cx.writer);
  return last ?? ended;
}

/** A `try` without its `finally`. */
function* trial({ block: body, handler }, cx) {
  if (!handler) return yield* execute(body, cx);
  try {
    return yield* guarded(cx, () => execute(body, cx));
  } catch (error) {
    if (!(error instanceof Thrown)) throw error;
    return yield* catching(handler, cx, error);
  }
}

function* catching(node, cx, thrown) {
  return yield* scoped(node, cx, function* () {
    if (node.param) yield* bindPattern(node.param, cx, thrown.value, { declares: true });
    thrown.held?.end(node, cx.writer);
    cx.writer.endTemporaries(node, cx.temporaries);
    return yield* block(node.body, cx);
  });
}

function* choice(node, cx) {
  const value = yield* evaluate(node.discriminant, cx);
  return yield* scoped(node, cx, function* () {
    hoistFunctions(cx, node.cases.flatMap(({ consequent }) => consequent));
    let from = -1;
    for (const [place, one] of node.cases.entries()) {
      if (from < 0 && one.test && (yield* evaluate(one.test, cx)) === value) from = place;
    }
    if (from < 0) from = node.cases.findIndex((one) => one.test === null);
    for (const one of from < 0 ? [] : node.cases.slice(from)) {
      for (const statement of one.consequent) {
        const ended = yield* execute(statement, cx);
        if (ended !== undefined) return ended.type === "break" && ended.label === undefined ? undefined : ended;
      }
    }
    return undefined;
  });
}

const nothing = function* () {};

Object.assign(executors, {
  BlockStatement: block, ExpressionStatement: expression, VariableDeclaration: variables, FunctionDeclaration: nothing, EmptyStatement: nothing,
  DebuggerStatement: nothing, IfStatement: branch, WhileStatement: whileLoop, DoWhileStatement: doLoop, ForStatement: forLoop,
  ForOfStatement: forOf, ForInStatement: forIn, ReturnStatement: returning, BreakStatement: jump("break"), ContinueStatement: jump("continue"),
  LabeledStatement: labeled, ThrowStatement: throwing, TryStatement: trying, SwitchStatement: choice,
});

