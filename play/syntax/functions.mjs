// Functions, methods and arrow functions (ECMA-262, 15.1 to 15.6 and 15.8).

import { assignment } from "./expressions.mjs";
import { asElements, bindingElement, eachName, restElement } from "./patterns.mjs";
import { markDirectives, statementList } from "./statements.mjs";

/** What may stand in a function. */
const FUNCTION = {
  mayReturn: true, isAsync: false, isGenerator: false, isInParameters: false, hasSuper: false, hasSuperCall: false, hasNewTarget: true,
  hasArguments: true,
};

/** A function with the word `function`, after `async` or not. A declaration declares its name, which it may lack if it is
    what a module exports by default. */
export function functionOf(r, start, { isExpression = false, mayLackName = false }) {
  const isAsync = r.eatWord("async");
  r.expect("function");
  const isGenerator = r.eat("*");
  const id = r.kind === "name" || !(isExpression || mayLackName) ? r.identifier() : null;
  if (id !== null) r.checkAssigned(id);
  if (id !== null && !isExpression) r.declare(id, "declareFunction");
  const type = isExpression ? "FunctionExpression" : "FunctionDeclaration";
  return rest(r, { type, start, id, context: { ...FUNCTION, isAsync, isGenerator } });
}

/** The function of a method, from its parameters on. */
export function methodFunction(r, { kind = "method", isAsync = false, isGenerator = false, hasSuperCall = false }) {
  const { start } = r, context = { ...FUNCTION, isAsync, isGenerator, hasSuper: true, hasSuperCall };
  const node = rest(r, { type: "FunctionExpression", start, id: null, context });
  if (kind === "get" && node.params.length !== 0) r.fail("A getter takes no parameter.", start, node.body.start);
  if (kind === "set" && (node.params.length !== 1 || node.params[0].type === "RestElement")) {
    r.fail("A setter takes one parameter.", start, node.body.start);
  }
  return node;
}

function rest(r, { type, start, id, context }) {
  return r.inFunction(context, () => {
    const params = parameters(r), body = functionBody(r, params);
    return { type, start, end: r.lastEnd, id, expression: false, generator: context.isGenerator, async: context.isAsync, params, body };
  });
}

function parameters(r) {
  const list = [];
  r.context.isInParameters = true;
  r.expect("(");
  while (r.kind !== ")") {
    list.push(r.kind === "..." ? restElement(r) : bindingElement(r));
    r.comma(")");
  }
  r.next();
  r.context.isInParameters = false;
  return declared(r, list);
}

function declared(r, list) {
  for (const parameter of list) eachName(parameter, (name) => r.declare(name, "declareParameter"));
  return list;
}

function functionBody(r, params) {
  const { start } = r;
  r.expect("{");
  const body = statementList(r, "}");
  markDirectives(r, body);
  const strict = body.find(({ directive }) => directive === "use strict");
  if (strict && params.some(({ type }) => type !== "Identifier")) {
    r.fail("'use strict' can't stand in a function whose parameters are more than names.", strict.start, strict.end);
  }
  r.expect("}");
  return { type: "BlockStatement", start, end: r.lastEnd, body };
}

/** An arrow function of which the parameters were read as expressions; the arrow stands here. */
export function arrowFunction(r, start, list, { isAsync, noIn }) {
  const context = { ...r.context, mayReturn: true, isAsync, isGenerator: false, isInParameters: false };
  return r.inFunction(context, () => {
    const params = declared(r, asElements(r, list, true));
    r.next();
    const isBlock = r.kind === "{", body = isBlock ? functionBody(r, params) : assignment(r, noIn);
    return {
      type: "ArrowFunctionExpression", start, end: r.lastEnd, id: null, expression: !isBlock, generator: false, async: isAsync, params,
      body,
    };
  });
}
