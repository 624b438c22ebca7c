// Functions as values, and what a call does. A function that was made where variables are captured is an object of the plan,
// which holds that environment.

import { Context, evaluate, execute, raise } from "./core.mjs";
import { Scope } from "./bindings.mjs";
import { Calling } from "./coroutines.mjs";
import { ScriptFault } from "./faults.mjs";
import { bindPattern } from "./patterns.mjs";
import { newArray } from "./properties.mjs";
import { Thing, isInPlan, isThing, planned } from "./values.mjs";

/** Engines have room for about as many calls in each other. */
const MOST_CALLS = 10000;
const usesOfThis = new WeakMap();

/** Whether an arrow function uses `this` or `super` of the function around it. */
function usesThis(node) {
  if (!usesOfThis.has(node)) usesOfThis.set(node, findsThis(node));
  return usesOfThis.get(node);
}

function findsThis(node) {
  if (node === null || typeof node !== "object") return false;
  if (Array.isArray(node)) return node.some(findsThis);
  if (node.type === "ThisExpression" || node.type === "Super") return true;
  return Object.values(node).some((part) => part?.type !== "FunctionDeclaration" && part?.type !== "FunctionExpression" && findsThis(part));
}

/** What a thing holds as soon as that is an object of the plan. */
class Link {
  constructor(owner, key) {
    Object.assign(this, { owner, key });
  }

  isNowInPlan(writer, node, thing, temporaries) {
    if (this.owner.number === 0 || writer.isReached(this.owner)) writer.hold(node, this.owner, this.key, thing, temporaries);
  }
}

/** A thing holds another, which need not be in the plan. */
export function link(cx, node, owner, key, value) {
  if (isInPlan(value)) cx.writer.hold(node, owner, key, value, cx.temporaries);
  else if (isThing(value)) value.holders.add(new Link(owner, key));
}

/** The number of parameters before the first one with a default, or the rest. */
function lengthOf({ params }) {
  const place = params.findIndex(({ type }) => type === "AssignmentPattern" || type === "RestElement");
  return place < 0 ? params.length : place;
}

export function makeFunction(cx, node, { name = node.id?.name ?? "", home = null } = {}) {
  const { realm } = cx.agent;
  const made = new Thing("function", realm.protos.function);
  Object.assign(made, { node, scope: cx.scope, home, isArrow: node.type === "ArrowFunctionExpression" });
  if (made.isArrow) Object.assign(made, { self: cx.self, home: cx.home, newTarget: cx.newTarget });
  made.properties.set("name", { value: name, isEnumerable: false, isReadOnly: true });
  made.properties.set("length", { value: lengthOf(node), isEnumerable: false, isReadOnly: true });
  if (!made.isArrow && !node.async && !home) made.complete = (key) => key === "prototype" && completePrototype(realm, made);
  capture(cx, made, node);
  const environment = cx.scope.nearest();
  const self = made.isArrow && usesThis(node) ? cx.self.value : null;
  if (environment !== null) {
    cx.make(node, made);
    cx.writer.hold(node, made, "scope", environment, cx.temporaries);
  }
  if (isThing(self)) link(cx, node, made, "this", self);
  return made;
}

/** Notes which variables around it a function, or a class, may read. */
export function capture(cx, made, node) {
  const free = cx.agent.world.scopes.get(node)?.free ?? [];
  cx.writer.uses.capture(made, [...free].map((name) => cx.scope.find(name)).filter((binding) => binding !== null));
}

/** The `prototype` of a function is made when it is first looked up. */
function completePrototype(realm, made) {
  if (made.properties.has("prototype")) return;
  const prototype = new Thing("object", made.node.generator ? realm.protos.generator : realm.protos.object);
  prototype.holders.add(new Link(made, "prototype"));
  if (!made.node.generator) {
    prototype.properties.set("constructor", { value: made, isEnumerable: false });
    made.holders.add(new Link(prototype, "constructor"));
  }
  made.properties.set("prototype", { value: prototype, isEnumerable: false });
}

/** Calls a function with values that the plan's variables hold. */
export function* invoke(cx, node, callee, self, values, newTarget) {
  if (callee.native) return yield* callee.native(cx, node, self, values, newTarget);
  if (callee.isClass && newTarget === undefined) {
    raise(cx, node, "TypeError", `Class constructor ${nameOfFunction(callee)} cannot be invoked without 'new'`);
  }
  const { writer } = cx;
  for (const value of [callee, self]) writer.need(value);
  try {
    return yield new Calling(entered(cx, node, callee, self, values, newTarget));
  } finally {
    for (const value of [callee, self]) writer.needNoMore(value, cx.temporaries);
  }
}

const nameOfFunction = (callee) => callee.properties.get("name")?.value ?? "";

function* entered(cx, node, callee, self, values, newTarget) {
  const { agent, writer } = cx;
  if ((agent.calls += 1) > MOST_CALLS) {
    agent.calls -= 1;
    raise(cx, node, "RangeError", "Maximum call stack size exceeded");
  }
  const scope = new Scope(callee.scope, agent, agent.world.scopes.get(callee.node));
  const inner = new Context(agent, scope, {
    self: callee.isArrow ? callee.self : selfOf(writer, self), callee, home: callee.home, caller: cx,
    newTarget: callee.isArrow ? callee.newTarget : newTarget,
  });
  const isLater = callee.node.generator || callee.node.async;
  try {
    if (isLater) return yield* agent.realm.begin(cx, inner, node, callee, values);
    yield* bindParameters(cx, inner, node, callee, values);
    const value = yield* runBody(inner, callee.node);
    if (callee.derived || newTarget === undefined) handOver(cx, inner, callee.node, value);
    return value;
  } finally {
    agent.calls -= 1;
    if (!isLater) leave(inner, callee.node, writer);
  }
}

/** The scope ends, and what is left of temporaries. */
export function leave(inner, node, writer) {
  const end = { start: node.end - 1, end: node.end };
  writer.endTemporaries(end, inner.temporaries);
  writer.endTemporaries(end, inner.returned);
  inner.scope.end(end, writer);
  if (!inner.callee?.isArrow) writer.uses.write(inner.self, undefined);
}

/** The `this` of a call. */
export function selfOf(writer, value) {
  const self = { value };
  writer.uses.write(self, value, "this");
  return self;
}

/** Binds the parameters. What only this call needs of the caller's temporaries becomes the parameters. */
export function* bindParameters(cx, inner, node, callee, values) {
  const { scope, writer } = inner;
  scope.begin(callee.node, writer);
  for (const [name, binding] of scope.bindings) {
    if (binding.kind === "self") binding.write(node, writer, callee, cx.temporaries);
    if (binding.kind === "param" && name === "arguments") {
      throw new ScriptFault("a parameter with this name is not taken", node);
    }
  }
  for (const [place, param] of callee.node.params.entries()) {
    if (param.type === "Identifier") scope.bindings.get(param.name).write(param, writer, values[place], cx.temporaries);
    else if (param.type === "RestElement") {
      const rest = newArray(inner, param, values.slice(place));
      yield* bindPattern(param.argument, inner, rest, { declares: true });
    } else yield* bindPattern(param, inner, values[place], { declares: true });
  }
  writer.endTemporaries(node, inner.temporaries);
}

/** Runs a function's body, and gives what it returns. */
export function* runBody(inner, { body }) {
  if (body.type !== "BlockStatement") {
    const value = yield* evaluate(body, inner);
    inner.endStatement(body, value);
    return value;
  }
  hoistFunctions(inner, body.body);
  for (const statement of body.body) {
    const ended = yield* execute(statement, inner);
    if (ended?.type === "return") return ended.value;
  }
  return undefined;
}

/** Function declarations are there from the beginning of their block on. */
export function hoistFunctions(cx, statements) {
  for (const one of statements) {
    if (one.type !== "FunctionDeclaration") continue;
    cx.scope.bindings.get(one.id.name).write(one, cx.writer, makeFunction(cx, one), cx.temporaries);
    cx.writer.endTemporaries(one, cx.temporaries);
  }
}

/** A value that is returned stays held: by a temporary of the caller, where what holds it now ends with the call. */
export function handOver(cx, inner, node, given) {
  if (!isInPlan(given)) return;
  const { writer } = cx;
  const value = planned(given);
  const made = inner.returned.findIndex(({ name }) => writer.machine.value(name) === value);
  if (made >= 0) {
    cx.temporaries.push(...inner.returned.splice(made, 1));
    return;
  }
  const own = new Set([...inner.scope.bindings.values()].map(({ variable }) => variable));
  if ([...value.variables].some((name) => !own.has(name))) return;
  const end = { start: node.end - 1, end: node.end };
  if (value.variables.size === 0) writer.operand(end, value, cx.temporaries);
  else writer.do(end, ["copy", writer.temporary(cx.temporaries), [...value.variables][0]], undefined, { temporary: true });
}

/** A new instance of a class or of a function, which runs as a constructor. */
export function* construct(cx, node, callee, values, newTarget = callee) {
  if (callee.native) {
    if (!callee.isConstructor) raise(cx, node, "TypeError", `${nameOfFunction(callee)} is not a constructor`);
    return yield* callee.native(cx, node, undefined, values, newTarget);
  }
  if (!callee.node || callee.isArrow || (callee.home && !callee.isClass) || callee.node.async || callee.node.generator) {
    raise(cx, node, "TypeError", `${nameOfFunction(callee)} is not a constructor`);
  }
  return yield* cx.agent.realm.instance(cx, node, callee, values, newTarget);
}

/** A new object with the prototype of a constructor. */
export function newInstance(cx, node, newTarget, kind = "object") {
  newTarget.complete?.("prototype");
  const { protos } = cx.agent.realm;
  const found = newTarget.properties.get("prototype")?.value;
  const made = new Thing(kind, isThing(found) ? found : (protos[kind] ?? protos.object));
  return made;
}

/** The plan's object of an instance holds its prototype, if that is an object of the plan. */
export function linkPrototype(cx, node, made) {
  if (made.proto !== null && !made.proto.isBuiltIn) link(cx, node, made, "prototype", made.proto);
}
