// Patterns: what gets values in an assignment, a declaration or a parameter (ECMA-262, 13.15.5, 14.3.3 and 15.1). Those of
// assignments and of arrow functions are read as expressions first, and made of these.

import { assignment } from "./expressions.mjs";
import { propertyKey } from "./objects.mjs";

// Patterns that are known to be such

/** A name or a pattern that declares names. */
export function bindingPattern(r) {
  if (r.kind === "[") return arrayPattern(r);
  if (r.kind === "{") return objectPattern(r);
  const name = r.identifier();
  r.checkAssigned(name);
  return name;
}

/** A pattern with the value that it has otherwise, if there is one. */
export function bindingElement(r) {
  const { start } = r;
  return withDefault(r, start, bindingPattern(r));
}

/** A pattern, and the value that stands behind it for the case that there is none. */
export function withDefault(r, start, left) {
  if (!r.eat("=")) return left;
  const right = assignment(r);
  return { type: "AssignmentPattern", start, end: r.lastEnd, left, right };
}

/** The rest of a list, after which nothing may stand. */
export function restElement(r, isInObject = false) {
  const { start } = r;
  r.expect("...");
  if (isInObject && r.kind !== "name") r.fail("The rest of an object gets one name.");
  const argument = bindingPattern(r);
  if (r.kind === ",") r.fail("Nothing may follow the rest, not even a comma.");
  return { type: "RestElement", start, end: r.lastEnd, argument };
}

function arrayPattern(r) {
  const { start } = r, elements = [];
  r.next();
  while (r.kind !== "]") {
    if (r.kind === ",") elements.push(null);
    else elements.push(r.kind === "..." ? restElement(r) : bindingElement(r));
    r.comma("]");
  }
  r.next();
  return { type: "ArrayPattern", start, end: r.lastEnd, elements };
}

function objectPattern(r) {
  const { start } = r, properties = [];
  r.next();
  while (r.kind !== "}") {
    properties.push(r.kind === "..." ? restElement(r, true) : patternProperty(r));
    r.comma("}");
  }
  r.next();
  return { type: "ObjectPattern", start, end: r.lastEnd, properties };
}

function patternProperty(r) {
  const { start } = r, { key, computed } = propertyKey(r);
  const shorthand = r.kind !== ":" && key.type === "Identifier" && !computed;
  if (!shorthand) r.expect(":");
  const value = shorthand ? shorthandValue(r, key) : bindingElement(r);
  return { type: "Property", start, end: r.lastEnd, method: false, shorthand, computed, key, value, kind: "init" };
}

function shorthandValue(r, key) {
  r.checkName(key.name, key);
  r.checkAssigned(key);
  return withDefault(r, key.start, { ...key });
}

// Patterns that were read as expressions

const isSimple = ({ type }) => type === "Identifier" || type === "MemberExpression";

/** What an expression is as a target of an assignment, or if `binds` as a pattern that declares names. */
export function asTarget(r, node, binds = false) {
  if (r.parenthesized.has(node) && (binds || !isSimple(node))) refuse(r, node);
  switch (node.type) {
    case "Identifier":
      r.checkAssigned(node);
      return node;
    case "MemberExpression":
      return binds ? refuse(r, node) : node;
    case "ArrayExpression":
    case "ArrayPattern":
      node.type = "ArrayPattern";
      asElements(r, node.elements, binds);
      return node;
    case "ObjectExpression":
    case "ObjectPattern":
      node.type = "ObjectPattern";
      node.properties.forEach((property, at) => asProperty(r, property, at === node.properties.length - 1, binds));
      return node;
    default:
      return refuse(r, node);
  }
}

function refuse(r, { start, end, type }) {
  r.fail(type === "ChainExpression" ? "What '?.' leads to can't get a value." : "This can't get a value.", start, end);
}

/** What a list of expressions is as elements of a pattern or as parameters; it is changed in place. */
export function asElements(r, list, binds) {
  list.forEach((node, at) => {
    if (node !== null) list[at] = isRest(node) ? asRest(r, node, at === list.length - 1, binds) : asElement(r, node, binds);
  });
  return list;
}

function asElement(r, node, binds) {
  if (node.type === "AssignmentPattern") {
    asTarget(r, node.left, binds);
    return node;
  }
  if (node.type !== "AssignmentExpression" || r.parenthesized.has(node)) return asTarget(r, node, binds);
  if (node.operator !== "=") refuse(r, node);
  const { start, end, right } = node;
  return { type: "AssignmentPattern", start, end, left: asTarget(r, node.left, binds), right };
}

const isRest = ({ type }) => type === "SpreadElement" || type === "RestElement";

function asRest(r, node, isLast, binds) {
  if (!isLast || r.spreadBeforeComma.has(node)) r.fail("Nothing may follow the rest, not even a comma.", node.start, node.end);
  node.type = "RestElement";
  node.argument = asTarget(r, node.argument, binds);
  return node;
}

function asProperty(r, node, isLast, binds) {
  if (isRest(node)) {
    asRest(r, node, isLast, binds);
    if (!isSimple(node.argument)) r.fail("The rest of an object gets one name.", node.argument.start, node.argument.end);
    return;
  }
  if (node.kind !== "init" || node.method) refuse(r, node);
  node.value = asElement(r, node.value, binds);
}

/** What may be counted up, or get a value by an operator: a name or a property. */
export function checkSimpleTarget(r, node) {
  if (!isSimple(node)) refuse(r, node);
  if (node.type === "Identifier") r.checkAssigned(node);
}

// The names of a pattern

/** Calls with each name that a pattern declares. */
export function eachName(pattern, call) {
  switch (pattern?.type) {
    case "Identifier":
      call(pattern);
      break;
    case "ArrayPattern":
      for (const element of pattern.elements) eachName(element, call);
      break;
    case "ObjectPattern":
      for (const property of pattern.properties) eachName(property, call);
      break;
    case "Property":
      eachName(pattern.value, call);
      break;
    case "AssignmentPattern":
      eachName(pattern.left, call);
      break;
    case "RestElement":
      eachName(pattern.argument, call);
      break;
    // no default: a hole has no name
  }
}
