// Classes and private names (ECMA-262, 15.7).

import { assignment, leftHandSide } from "./expressions.mjs";
import { methodFunction } from "./functions.mjs";
import { anyName, modifiers, propertyKey } from "./objects.mjs";
import { statementList } from "./statements.mjs";
import { PRIVATE } from "./tokens.mjs";

/** What may stand in a field's value and in a static block. */
const FIELD = {
  mayReturn: false, isAsync: false, isGenerator: false, isInParameters: false, hasSuper: true, hasSuperCall: false, hasNewTarget: true,
  hasArguments: false,
};

export function classOf(r, isExpression, mayLackName = false) {
  const { start } = r;
  r.next();
  const id = r.kind === "name" || !(isExpression || mayLackName) ? r.identifier() : null;
  if (id !== null) r.checkAssigned(id);
  if (id !== null && !isExpression) r.declare(id, "declareLexical");
  const superClass = r.eat("extends") ? leftHandSide(r) : null;
  const body = classBody(r, superClass !== null);
  return { type: isExpression ? "ClassExpression" : "ClassDeclaration", start, end: r.lastEnd, id, superClass, body };
}

function classBody(r, isDerived) {
  const { start, privateNames: outer } = r, body = [];
  r.privateNames = { declared: new Map(), used: [] };
  r.expect("{");
  while (r.kind !== "}") {
    if (r.eat(";")) continue;
    const element = classElement(r, isDerived);
    if (element.kind === "constructor" && body.some(({ kind }) => kind === "constructor")) {
      r.fail("A class has one constructor.", element.key.start, element.key.end);
    }
    body.push(element);
  }
  r.next();
  leavePrivateNames(r, outer);
  return { type: "ClassBody", start, end: r.lastEnd, body };
}

function classElement(r, isDerived) {
  const { start } = r;
  let word = r.isWord("static") ? anyName(r) : null;
  if (word !== null && r.kind === "{") return staticBlock(r, start);
  const isStatic = word !== null && (r.isKeyStart() || r.kind === "*");
  if (isStatic) word = null;
  const found = word === null ? modifiers(r, "method") : { kind: "method", word };
  const isPrivate = found.word === null && r.kind === PRIVATE;
  const { key, computed } = found.word === null && !isPrivate ? propertyKey(r) : { key: found.word ?? privateNode(r), computed: false };
  const isMethod = r.kind === "(" || found.kind !== "method" || found.isAsync || found.isGenerator;
  if (isPrivate) declarePrivate(r, key, isMethod ? found.kind : "field", isStatic);
  const element = { start, isStatic, key, computed, name: computed || isPrivate ? null : key.name ?? key.value };
  return isMethod ? method(r, element, found, isDerived) : field(r, element);
}

function method(r, { start, isStatic, key, computed, name }, { kind, isAsync, isGenerator }, isDerived) {
  const isConstructor = !isStatic && name === "constructor";
  if (isConstructor && (kind !== "method" || isAsync || isGenerator)) r.fail("A constructor is a plain method.", key.start, key.end);
  if (isStatic && name === "prototype") r.fail("A class has a 'prototype' of its own already.", key.start, key.end);
  const value = methodFunction(r, { kind, isAsync, isGenerator, hasSuperCall: isConstructor && isDerived });
  return {
    type: "MethodDefinition", start, end: r.lastEnd, static: isStatic, computed, key, kind: isConstructor ? "constructor" : kind, value,
  };
}

function field(r, { start, isStatic, key, computed, name }) {
  if (name === "constructor" || (isStatic && name === "prototype")) r.fail(`A field can't be named '${name}'.`, key.start, key.end);
  const value = r.eat("=") ? r.inFunction(FIELD, () => assignment(r)) : null;
  r.semicolon();
  return { type: "PropertyDefinition", start, end: r.lastEnd, static: isStatic, computed, key, value };
}

function staticBlock(r, start) {
  return r.inFunction(FIELD, () => {
    r.next();
    const body = statementList(r, "}");
    r.expect("}");
    return { type: "StaticBlock", start, end: r.lastEnd, body };
  });
}

// Private names

function privateNode(r) {
  const { start, value: name } = r;
  r.next();
  return { type: "PrivateIdentifier", start, end: r.lastEnd, name };
}

/** A private name that is used; that the class or one around it declares it is seen at the class's end. */
export function privateName(r) {
  const node = privateNode(r);
  if (r.privateNames === null) undeclared(r, node);
  r.privateNames.used.push(node);
  return node;
}

function undeclared(r, { start, end, name }) {
  r.fail(`No class around this declares '#${name}'.`, start, end);
}

/** Declares a private name. Only a getter and a setter may share one, if both are static or none is. */
function declarePrivate(r, { start, end, name }, kind, isStatic) {
  if (name === "constructor") r.fail("'#constructor' is no name of a field.", start, end);
  const { declared } = r.privateNames, had = declared.get(name);
  const other = { get: `set ${isStatic}`, set: `get ${isStatic}` }[kind];
  if (had !== undefined && had !== other) r.fail(`'#${name}' is declared in this class already.`, start, end);
  declared.set(name, had === undefined ? `${kind} ${isStatic}` : "both");
}

/** What this class does not declare, one around it has to. */
function leavePrivateNames(r, outer) {
  const { declared, used } = r.privateNames;
  const open = used.filter(({ name }) => !declared.has(name));
  if (open.length > 0 && outer === null) undeclared(r, open[0]);
  outer?.used.push(...open);
  r.privateNames = outer;
}
