// Classes: their members, fields and instances. A class that captures no variable need not be an object of the plan.

import { Context, evaluate, evaluators, executors, needing, outside, raise } from "./core.mjs";
import { Binding, Scope } from "./bindings.mjs";
import { bindParameters, capture, construct, handOver, leave, link, linkPrototype, makeFunction, newInstance, runBody, selfOf } from "./functions.mjs";
import { keyOfProperty, named } from "./patterns.mjs";
import { define, defineAccessor } from "./properties.mjs";
import { scoped, statements } from "./statements.mjs";
import { PrivateName, Thing, isCallable, isThing } from "./values.mjs";

/** The function of a class that writes no constructor. */
function emptyConstructor({ start, end }) {
  return { type: "FunctionExpression", id: null, params: [], body: { type: "BlockStatement", body: [], start, end }, start, end };
}

function declarePrivateNames(node, scope) {
  for (const { key, type } of node.body.body) {
    if (type === "StaticBlock" || key.type !== "PrivateIdentifier" || scope.bindings.has(`#${key.name}`)) continue;
    const binding = new Binding(`#${key.name}`, "const", scope, false);
    scope.bindings.set(`#${key.name}`, Object.assign(binding, { value: new PrivateName(key.name), isInitialized: true }));
  }
}

function* classValue(node, cx, name) {
  return yield* scoped(node, cx, function* () {
    declarePrivateNames(node, cx.scope);
    const made = yield* begun(node, cx, node.id?.name ?? (typeof name === "string" ? name : ""));
    return yield* needing(cx, made, function* () {
      for (const member of node.body.body) yield* addMember(member, cx, made);
      if (node.id) cx.scope.find(node.id.name).write(node, cx.writer, made, cx.temporaries);
      for (const one of made.later) yield* one();
      return made;
    });
  });
}

/** The class itself, with its prototype, and what it inherits from. */
function* begun(node, cx, name) {
  const { protos } = cx.agent.realm;
  const parent = node.superClass ? yield* evaluate(node.superClass, cx) : undefined;
  if (parent !== undefined && parent !== null && !isCallable(parent)) {
    raise(cx, node.superClass, "TypeError", `Class extends value ${String(parent)} is not a constructor or null`);
  }
  parent?.complete?.("prototype");
  const around = parent ? parent.properties.get("prototype").value : parent === null ? null : protos.object;
  const prototype = new Thing("object", around);
  const own = node.body.body.find(({ kind }) => kind === "constructor");
  const made = makeFunction(cx, own?.value ?? emptyConstructor(node), { name, home: prototype });
  capture(cx, made, node);
  Object.assign(made, { isClass: true, derived: Boolean(parent), isDefault: !own, fields: [], later: [], instanceScope: cx.scope });
  made.properties.set("prototype", { value: prototype, isEnumerable: false, isReadOnly: true });
  define(cx, node, prototype, "constructor", made, { isEnumerable: false });
  link(cx, node, made, "prototype", prototype);
  if (parent) {
    made.proto = parent;
    if (!parent.isBuiltIn) link(cx, node, made, "parent", parent);
    if (!around.isBuiltIn) link(cx, node, prototype, "prototype", around);
  }
  return made;
}

function* addMember(member, cx, made) {
  const goal = member.static ? made : made.properties.get("prototype").value;
  if (member.type === "StaticBlock") made.later.push(() => staticBlock(member, cx, made));
  else if (member.type === "PropertyDefinition") yield* addField(member, cx, made);
  else if (member.kind !== "constructor") {
    const key = yield* keyOfProperty(member, cx);
    const method = makeFunction(cx, member.value, { name: typeof key === "string" ? key : "", home: goal });
    if (member.kind === "method") define(cx, member, goal, key, method, { isEnumerable: false });
    else defineAccessor(cx, member, goal, key, member.kind, method, { isEnumerable: false });
  }
}

function* addField(member, cx, made) {
  const key = yield* keyOfProperty(member, cx);
  const field = { key, member };
  if (member.static) made.later.push(() => setField(cx, made, made, made, field));
  else made.fields.push(field);
}

/** The context in which a field or a static block is evaluated. */
function within(cx, made, self, home, node) {
  const scope = new Scope(made.instanceScope, cx.agent, cx.agent.world.scopes.get(node)).begin(node, cx.writer);
  return new Context(cx.agent, scope, { self: selfOf(cx.writer, self), callee: made, home, caller: cx });
}

function* setField(cx, made, self, home, { key, member }) {
  const inner = within(cx, made, self, home, member);
  const value = member.value ? yield* named(member.value, inner, key) : undefined;
  define(inner, member, self, key, value);
  leave(inner, member, cx.writer);
}

function* staticBlock(member, cx, made) {
  const inner = within(cx, made, made, made, member);
  yield* statements(member.body, inner);
  leave(inner, member, cx.writer);
}

/** Gives an instance the fields of a class. */
function* setFields(cx, made, self) {
  for (const field of made.fields ?? []) yield* setField(cx, made, self, made.properties.get("prototype").value, field);
}

/** A new instance, of a class or of a function that is called with `new`. */
export function* instance(cx, node, callee, values, newTarget) {
  const self = { value: undefined, isMissing: true, callee, newTarget, temporaries: cx.temporaries };
  try {
    return yield* constructed(cx, node, self, values);
  } finally {
    cx.writer.needNoMore(self.value, cx.temporaries);
  }
}

function* constructed(cx, node, self, values) {
  const { callee, newTarget } = self;
  if (!callee.derived) {
    const made = newInstance(cx, node, newTarget);
    cx.make(node, made);
    linkPrototype(cx, node, made);
    yield* begin(cx, self, made);
  } else if (callee.isDefault) {
    const inner = new Context(cx.agent, callee.scope, { self, callee, home: callee.home, newTarget, caller: cx });
    yield* callSuper(inner, node, values);
    cx.writer.endTemporaries(node, inner.temporaries);
    return self.value;
  }
  return yield* runConstructor(cx, node, self, values);
}

/** From here on the constructor has its instance, and needs it up to its end. */
function* begin(cx, self, made) {
  Object.assign(self, { value: made, isMissing: false });
  cx.writer.uses.write(self, made, "this");
  cx.writer.need(made);
  yield* setFields(cx, self.callee, made);
}

function* runConstructor(cx, node, self, values) {
  const { callee, newTarget } = self;
  const scope = new Scope(callee.scope, cx.agent, cx.agent.world.scopes.get(callee.node));
  const inner = new Context(cx.agent, scope, { self, callee, home: callee.home, newTarget, caller: cx });
  try {
    yield* bindParameters(cx, inner, node, callee, values);
    const value = yield* runBody(inner, callee.node);
    if (isThing(value)) {
      handOver(cx, inner, callee.node, value);
      return value;
    }
    return inner.agent.realm.thisOf(inner, node);
  } finally {
    leave(inner, callee.node, cx.writer);
  }
}

/** super(..): the parent's constructor makes the instance, which a temporary of the caller holds from then on. */
export function* callSuper(cx, node, values) {
  const { self } = cx;
  const parent = self.callee.proto;
  if (!isCallable(parent)) raise(cx, node, "TypeError", "Super constructor is not a constructor");
  const made = yield* construct(cx, node, parent, values, self.newTarget);
  if (!self.isMissing) raise(cx, node, "ReferenceError", "Super constructor may only be called once");
  const place = cx.temporaries.findIndex(({ name }) => cx.writer.machine.value(name) === made);
  if (place >= 0) self.temporaries.push(...cx.temporaries.splice(place, 1));
  yield* begin(cx, self, made);
  return made;
}

evaluators.ClassExpression = classValue;
evaluators.MetaProperty = function* (node, cx) {
  if (node.meta.name !== "new") throw outside(node, "import.meta");
  return cx.newTarget;
};
executors.ClassDeclaration = function* (node, cx) {
  yield* classValue(node, cx);
};
