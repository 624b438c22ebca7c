// Object literals, and the keys of properties (ECMA-262, 13.2.5).

import { assignment, assignmentOrPattern } from "./expressions.mjs";
import { methodFunction } from "./functions.mjs";
import { literal } from "./primary.mjs";

/** The key of a property, and whether it is computed. */
export function propertyKey(r) {
  if (r.eat("[")) {
    const key = assignment(r);
    r.expect("]");
    return { key, computed: true };
  }
  if (r.kind === "number" || r.kind === "text") return { key: literal(r), computed: false };
  return { key: anyName(r), computed: false };
}

/** A name, or a word that is none elsewhere. */
export function anyName(r) {
  if (!r.isAnyName()) r.unexpected();
  const { start, value } = r;
  r.next();
  return { type: "Identifier", start, end: r.lastEnd, name: value };
}

/** What stands before a key and says what it is the key of: async, `*`, get and set; `kind` where none of the last two does.
    Each of the words may be a key itself, which is found by what follows it. Then it is given too, as `word`. */
export function modifiers(r, kind) {
  const found = { isAsync: false, isGenerator: false, kind, word: null };
  if (r.isWord("async")) {
    const word = anyName(r);
    if ((r.isKeyStart() || r.kind === "*") && !r.isAfterLine) found.isAsync = true;
    else return { ...found, word };
  }
  if (r.eat("*")) found.isGenerator = true;
  if (!found.isAsync && !found.isGenerator && (r.isWord("get") || r.isWord("set"))) {
    const word = anyName(r);
    if (!r.isKeyStart()) return { ...found, word };
    found.kind = word.name;
  }
  return found;
}

export function objectLiteral(r) {
  const { start } = r, properties = [];
  let prototype = null;
  r.next();
  while (r.kind !== "}") {
    const property = r.kind === "..." ? spreadProperty(r) : objectProperty(r);
    if (isPrototype(property)) {
      if (prototype !== null) r.pending ??= { message: "An object has one '__proto__'.", start: property.key.start, end: property.key.end };
      prototype = property;
    }
    properties.push(property);
    if (r.kind === "," && property.type === "SpreadElement") r.spreadBeforeComma.add(property);
    r.comma("}");
  }
  r.next();
  return { type: "ObjectExpression", start, end: r.lastEnd, properties };
}

function isPrototype({ type, computed, method, shorthand, kind, key }) {
  if (type !== "Property" || computed || method || shorthand || kind !== "init") return false;
  return (key.name ?? key.value) === "__proto__";
}

function spreadProperty(r) {
  const { start } = r;
  r.next();
  const argument = assignmentOrPattern(r);
  return { type: "SpreadElement", start, end: r.lastEnd, argument };
}

function objectProperty(r) {
  const { start } = r;
  const { isAsync, isGenerator, kind, word } = modifiers(r, "init");
  const { key, computed } = word === null ? propertyKey(r) : { key: word, computed: false };
  const property = (value, more) => ({
    type: "Property", start, end: r.lastEnd, method: false, shorthand: false, computed, key, value, kind, ...more,
  });
  if (kind !== "init") return property(methodFunction(r, { kind }));
  if (r.kind === "(" || isAsync || isGenerator) return property(methodFunction(r, { isAsync, isGenerator }), { method: true });
  if (r.eat(":")) return property(assignmentOrPattern(r));
  if (computed || key.type !== "Identifier") r.expect(":");
  return property(shorthand(r, key), { shorthand: true });
}

/** The value of a property that is a name alone. With a default behind it, it can only be a part of a pattern. */
function shorthand(r, key) {
  r.checkName(key.name, key);
  if (r.kind !== "=") return { ...key };
  r.pending ??= { message: "'=' stands after a property only in a pattern; a value follows ':'.", start: r.start, end: r.end };
  r.next();
  const right = assignment(r);
  return { type: "AssignmentPattern", start: key.start, end: r.lastEnd, left: { ...key }, right };
}
