// Destructuring, and what stands left of an assignment.

import { call, evaluate, needing, outside, raise } from "./core.mjs";
import { iterate } from "./iteration.mjs";
import { define, enumerableKeys, findProperty, getProperty, keyOf, newArray, setProperty } from "./properties.mjs";
import { Thing, isThing } from "./values.mjs";

/** The binding of a name that stands in the script, for its value or for an assignment. */
export function bindingOf(cx, node, isAssigned = false) {
  const found = cx.scope.find(node.name);
  if (found === null) return null;
  if (found.scope.agent !== cx.agent) cx.agent.realm.checkForeign(cx, node, found, isAssigned);
  if (!found.isInitialized) raise(cx, node, "ReferenceError", `Cannot access '${node.name}' before initialization`);
  return found;
}

/** Gives a value to a pattern: to names that it declares, or to what stands there. */
export function* bindPattern(pattern, cx, value, { declares }) {
  switch (pattern.type) {
    case "Identifier": return assignName(pattern, cx, value, declares);
    case "MemberExpression": return yield* needing(cx, value, function* () {
      const { object, key } = yield* memberOf(pattern, cx);
      return yield* setMember(cx, pattern, object, key, value);
    });
    case "AssignmentPattern": return yield* bindDefault(pattern, cx, value, declares);
    case "ArrayPattern": return yield* bindArray(pattern, cx, value, declares);
    case "ObjectPattern": return yield* bindObject(pattern, cx, value, declares);
    default: throw outside(pattern, "a pattern of this kind");
  }
}

function assignName(node, cx, value, declares) {
  if (declares) {
    cx.scope.find(node.name).write(node, cx.writer, value, cx.temporaries);
    return;
  }
  const binding = bindingOf(cx, node, true);
  if (binding === null) cx.agent.realm.unknown(cx, node, node.name);
  if (!binding.isMutable) raise(cx, node, "TypeError", "Assignment to constant variable.");
  binding.write(node, cx.writer, value, cx.temporaries);
}

function* bindDefault({ left, right }, cx, value, declares) {
  const given = value === undefined ? yield* named(right, cx, left.name) : value;
  yield* bindPattern(left, cx, given, { declares });
}

/** The value of an expression; a function without a name gets the one of its variable. */
export function* named(node, cx, name) {
  return yield* evaluate(node, cx, name);
}

function* bindArray(pattern, cx, value, declares) {
  if (value === undefined || value === null) raise(cx, pattern, "TypeError", `${value} is not iterable`);
  const most = pattern.elements.at(-1)?.type === "RestElement" ? Infinity : pattern.elements.length;
  const values = [];
  yield* iterate(cx, pattern, value, function* (one) {
    values.push(one);
    return values.length >= most;
  }, most);
  for (const [place, element] of pattern.elements.entries()) {
    if (element === null) continue;
    if (element.type === "RestElement") yield* bindPattern(element.argument, cx, newArray(cx, element, values.slice(place)), { declares });
    else yield* bindPattern(element, cx, values[place], { declares });
  }
}

function* bindObject(pattern, cx, value, declares) {
  if (value === undefined || value === null) {
    raise(cx, pattern, "TypeError", `Cannot destructure '${value}' as it is ${value}.`);
  }
  const used = new Set();
  for (const property of pattern.properties) {
    if (property.type === "RestElement") {
      yield* bindPattern(property.argument, cx, yield* restOf(property, cx, value, used), { declares });
      continue;
    }
    const key = yield* keyOfProperty(property, cx);
    used.add(key);
    yield* bindPattern(property.value, cx, yield* getProperty(cx, property, value, key), { declares });
  }
}

function* restOf(node, cx, value, used) {
  const made = cx.make(node, new Thing("object", cx.agent.realm.protos.object));
  for (const key of isThing(value) ? enumerableKeys(value) : []) {
    if (!used.has(key)) define(cx, node, made, key, yield* getProperty(cx, node, value, key));
  }
  return made;
}

/** The key of a property in a literal, a pattern or a class. */
export function* keyOfProperty({ key, computed }, cx) {
  if (computed) return keyOf(yield* evaluate(key, cx));
  if (key.type === "PrivateIdentifier") return privateName(cx, key);
  return key.type === "Identifier" ? key.name : String(key.value);
}

export function privateName(cx, node) {
  return cx.scope.find(`#${node.name}`).value;
}

/** super.key = value: a setter of the parent's is called; else the property is the object's own. */
function* setOfSuper(cx, node, object, key, value) {
  const found = cx.home.proto === null ? null : findProperty(cx.home.proto, key);
  if (found?.found.set !== undefined) yield* call(cx, node, found.found.set, object, [value]);
  else define(cx, node, object, key, value);
  return value;
}

/** The object and the key of a member that is assigned. */
export function* memberOf(node, cx) {
  if (node.object.type === "Super") {
    cx.writer.uses.read(cx.self);
    return { object: cx.self.value, key: yield* keyOfMember(node, cx) };
  }
  const object = yield* evaluate(node.object, cx);
  const key = yield* needing(cx, object, () => keyOfMember(node, cx));
  return { object, key };
}

export function* keyOfMember({ property, computed }, cx) {
  if (property.type === "PrivateIdentifier") return privateName(cx, property);
  return computed ? keyOf(yield* evaluate(property, cx)) : property.name;
}

export function* setMember(cx, node, object, key, value) {
  if (node.object.type === "Super") return yield* setOfSuper(cx, node, object, key, value);
  if (node.property.type === "PrivateIdentifier") cx.agent.realm.checkPrivate(cx, node, object, key);
  return yield* setProperty(cx, node, object, key, value);
}
