// What each kind of expression gives. Classes, and what waits, have files of their own.

import { call, evaluate, evaluators, needing, outside, raise, textOfNode } from "./core.mjs";
import { ScriptFault } from "./faults.mjs";
import { construct, makeFunction } from "./functions.mjs";
import { listOf } from "./iteration.mjs";
import { binary, instanceOf, toNumber, toText, unary } from "./operators.mjs";
import { bindPattern, bindingOf, keyOfMember, keyOfProperty, memberOf, named, privateName, setMember } from "./patterns.mjs";
import { define, defineAccessor, deleteProperty, enumerableKeys, findProperty, getProperty, keyOf, newArray } from "./properties.mjs";
import { isSaying, say } from "./saying.mjs";
import { Thing, isCallable, isThing } from "./values.mjs";

/** Where an optional chain ends early. */
const SKIPPED = Symbol("skipped");

// Names and literals

function* literal(node) {
  if (node.regex) throw outside(node, "a regular expression");
  if (node.bigint) throw outside(node, "a BigInt");
  return node.value;
}

function* identifier(node, cx) {
  const binding = bindingOf(cx, node);
  if (binding !== null) return binding.read(node, cx.writer, cx.temporaries);
  return cx.agent.realm.global(cx, node, node.name);
}

function* template(node, cx) {
  let text = node.quasis[0].value.cooked;
  for (const [place, part] of node.expressions.entries()) {
    text += (yield* toText(cx, part, yield* evaluate(part, cx))) + node.quasis[place + 1].value.cooked;
  }
  return text;
}

function* array(node, cx) {
  const values = yield* listed(node.elements, cx);
  return newArray(cx, node, values);
}

/** The values of elements or arguments, with what is spread. */
function* listed(nodes, cx) {
  const { writer } = cx;
  const needed = [];
  try {
    for (const one of nodes) {
      const found = one === null ? [undefined] : one.type === "SpreadElement" ? yield* spread(one, cx) : [yield* evaluate(one, cx)];
      for (const value of found) {
        writer.need(value);
        writer.uses.write(needed[needed.push({ value }) - 1], value);
      }
    }
    return needed.map(({ value }) => value);
  } finally {
    for (const one of needed) {
      writer.uses.read(one);
      writer.needNoMore(one.value, cx.temporaries);
    }
  }
}

function* spread(node, cx) {
  return yield* listOf(cx, node, yield* evaluate(node.argument, cx));
}

function* object(node, cx) {
  const made = cx.make(node, new Thing("object", cx.agent.realm.protos.object));
  for (const property of node.properties) {
    if (property.type === "SpreadElement") yield* assignAll(cx, property, made, yield* evaluate(property.argument, cx));
    else yield* member(property, cx, made);
  }
  return made;
}

function* member(property, cx, made) {
  const key = yield* keyOfProperty(property, cx);
  if (property.kind === "init" && key === "__proto__" && !property.computed && !property.shorthand) {
    throw new ScriptFault("__proto__ in an object literal is not taken: Object.create gives an object its prototype", property);
  }
  const isMethod = property.method || property.kind !== "init";
  const value = isMethod ? makeFunction(cx, property.value, { name: key, home: made }) : yield* named(property.value, cx, key);
  if (property.kind === "init") define(cx, property, made, key, value);
  else defineAccessor(cx, property, made, key, property.kind, value);
}

/** Copies the own enumerable properties of a value. */
export function* assignAll(cx, node, made, source) {
  if (typeof source === "string") {
    for (const [place, letter] of [...source].entries()) define(cx, node, made, String(place), letter);
  }
  for (const key of isThing(source) ? enumerableKeys(source) : []) {
    define(cx, node, made, key, yield* getProperty(cx, node, source, key));
  }
}

function* functionValue(node, cx, name) {
  return makeFunction(cx, node, { name: node.id?.name ?? (typeof name === "string" ? name : "") });
}

// Members and calls

/** The value of a member, with the object on which a method would be called. */
function* reference(node, cx) {
  if (node.object.type === "Super") return yield* ofSuper(node, cx);
  const self = yield* evaluate(node.object, cx);
  if (self === SKIPPED || (node.optional && (self === undefined || self === null))) return { self, value: SKIPPED };
  const key = yield* needing(cx, self, () => keyOfMember(node, cx));
  if (node.property.type === "PrivateIdentifier") cx.agent.realm.checkPrivate(cx, node, self, key);
  return { self, value: yield* needing(cx, self, () => getProperty(cx, node, self, key)) };
}

function* ofSuper(node, cx) {
  const key = yield* keyOfMember(node, cx);
  cx.writer.uses.read(cx.self);
  const found = cx.home.proto === null ? null : findProperty(cx.home.proto, key);
  if (found === null) return { self: cx.self.value, value: undefined };
  const { value } = found.found;
  return { self: cx.self.value, value: "value" in found.found ? value : yield* call(cx, node, found.found.get, cx.self.value, []) };
}

function* calling(node, cx) {
  if (node.callee.type === "Super") return yield* cx.agent.realm.callSuper(cx, node, yield* listed(node.arguments, cx));
  if (isSaying(node, cx)) return yield* say(node, cx);
  const isMember = node.callee.type === "MemberExpression";
  const { self, value } = isMember ? yield* reference(node.callee, cx) : { self: undefined, value: yield* evaluate(node.callee, cx) };
  if (value === SKIPPED || (node.optional && (value === undefined || value === null))) return SKIPPED;
  if (!isCallable(value)) raise(cx, node.callee, "TypeError", `${textOfNode(cx, node)} is not a function`);
  for (const one of [self, value]) cx.writer.need(one);
  try {
    const values = yield* needing(cx, self, () => listed(node.arguments, cx));
    return yield* call(cx, node, value, self, values);
  } finally {
    for (const one of [self, value]) cx.writer.needNoMore(one, cx.temporaries);
  }
}

function* creating(node, cx) {
  const callee = yield* evaluate(node.callee, cx);
  if (!isCallable(callee)) raise(cx, node.callee, "TypeError", `${textOfNode(cx, node)} is not a constructor`);
  const values = yield* needing(cx, callee, () => listed(node.arguments, cx));
  return yield* construct(cx, node, callee, values);
}

function* chain(node, cx) {
  const value = yield* evaluate(node.expression, cx);
  return value === SKIPPED ? undefined : value;
}

// Operators

/** Whether an expression is a name that nothing has. */
const isUnknown = ({ type, name }, cx) => type === "Identifier" && cx.scope.find(name) === null && !cx.agent.realm.hasGlobal(name);

function* unaryOperator(node, cx) {
  const { operator, argument } = node;
  if (operator === "delete") return yield* deleting(argument, cx);
  if (operator === "typeof" && isUnknown(argument, cx)) return "undefined";
  return yield* unary(cx, node, operator, yield* evaluate(argument, cx));
}

function* deleting(argument, cx) {
  const isChain = argument.type === "ChainExpression", node = isChain ? argument.expression : argument;
  if (node.type !== "MemberExpression") {
    yield* evaluate(node, cx);
    return true;
  }
  const { object: thing, key } = yield* memberOf(node, cx);
  // A chain that ends early gives no object.
  if (!isChain && (thing === undefined || thing === null)) raise(cx, node, "TypeError", "Cannot convert undefined or null to object");
  return yield* deleteProperty(cx, node, thing, key);
}

function* binaryOperator(node, cx) {
  const { operator } = node;
  if (node.left.type === "PrivateIdentifier") {
    return findProperty(yield* evaluate(node.right, cx), privateName(cx, node.left)) !== null;
  }
  const left = yield* evaluate(node.left, cx);
  const right = yield* needing(cx, left, () => evaluate(node.right, cx));
  if (operator === "instanceof") return yield* instanceOf(cx, node, left, right);
  if (operator !== "in") return yield* binary(cx, node, operator, left, right);
  if (!isThing(right)) {
    raise(cx, node, "TypeError", "Cannot use 'in' operator to search for a key in a value that is no object");
  }
  return findProperty(right, keyOf(left)) !== null;
}

const goesOn = {
  "&&": (value) => Boolean(value),
  "||": (value) => !value,
  "??": (value) => value === undefined || value === null,
};

function* logical(node, cx) {
  const left = yield* evaluate(node.left, cx);
  return goesOn[node.operator](left) ? yield* evaluate(node.right, cx) : left;
}

function* conditional(node, cx) {
  return yield* evaluate((yield* evaluate(node.test, cx)) ? node.consequent : node.alternate, cx);
}

function* sequence(node, cx) {
  let value;
  for (const one of node.expressions) value = yield* evaluate(one, cx);
  return value;
}

// Assignments

function* assignment(node, cx) {
  if (node.operator !== "=") return yield* compound(node, cx);
  const { left, right } = node;
  if (left.type !== "MemberExpression") {
    const value = yield* named(right, cx, left.name);
    yield* bindPattern(left, cx, value, { declares: false });
    return value;
  }
  const { object: thing, key } = yield* memberOf(left, cx);
  const value = yield* needing(cx, thing, () => evaluate(right, cx));
  return yield* setMember(cx, left, thing, key, value);
}

/** Where the value of an assignment's left side comes from, and how it gets another. */
function* target(node, cx) {
  if (node.type === "Identifier") {
    const get = function* () { return yield* identifier(node, cx); };
    return { get, set: (value) => bindPattern(node, cx, value, { declares: false }), needed: undefined };
  }
  const { object: thing, key } = yield* memberOf(node, cx);
  if (node.property.type === "PrivateIdentifier") cx.agent.realm.checkPrivate(cx, node, thing, key);
  return { get: () => getProperty(cx, node, thing, key), set: (value) => setMember(cx, node, thing, key, value), needed: thing };
}

function* compound(node, cx) {
  const { get, set, needed } = yield* target(node.left, cx);
  const operator = node.operator.slice(0, -1);
  return yield* needing(cx, needed, function* () {
    const old = yield* get();
    if (goesOn[operator] && !goesOn[operator](old)) return old;
    const right = yield* needing(cx, old, () => named(node.right, cx, node.left.name));
    const value = goesOn[operator] ? right : yield* binary(cx, node, operator, old, right);
    yield* set(value);
    return value;
  });
}

function* update(node, cx) {
  const { get, set, needed } = yield* target(node.argument, cx);
  return yield* needing(cx, needed, function* () {
    const old = yield* toNumber(cx, node, yield* get());
    const value = node.operator === "++" ? old + 1 : old - 1;
    yield* set(value);
    return node.prefix ? value : old;
  });
}

Object.assign(evaluators, {
  Literal: literal, Identifier: identifier, TemplateLiteral: template, ArrayExpression: array, ObjectExpression: object,
  ArrowFunctionExpression: functionValue, FunctionExpression: functionValue,
  MemberExpression: function* (node, cx) { return (yield* reference(node, cx)).value; },
  ThisExpression: function* (node, cx) { return cx.agent.realm.thisOf(cx, node); },
  CallExpression: calling, NewExpression: creating, ChainExpression: chain,
  UnaryExpression: unaryOperator, BinaryExpression: binaryOperator, LogicalExpression: logical, ConditionalExpression: conditional,
  SequenceExpression: sequence, AssignmentExpression: assignment, UpdateExpression: update,
  ParenthesizedExpression: function* (node, cx) { return yield* evaluate(node.expression, cx); },
});
