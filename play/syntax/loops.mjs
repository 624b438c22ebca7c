// Loops (ECMA-262, 14.7).

import { assignment, expression, expressionOrPattern } from "./expressions.mjs";
import { asTarget } from "./patterns.mjs";
import { condition, statement, variables } from "./statements.mjs";

function loopBody(r) {
  const { labels } = r.context;
  labels.push({ name: null, isLoop: true });
  const body = statement(r);
  labels.pop();
  return body;
}

export function whileStatement(r) {
  const { start } = r;
  r.next();
  const test = condition(r), body = loopBody(r);
  return { type: "WhileStatement", start, end: r.lastEnd, test, body };
}

export function doStatement(r) {
  const { start } = r;
  r.next();
  const body = loopBody(r);
  r.expect("while");
  const test = condition(r);
  r.eat(";");
  return { type: "DoWhileStatement", start, end: r.lastEnd, body, test };
}

export function forStatement(r) {
  const { start } = r;
  r.next();
  const awaits = r.isWord("await");
  if (awaits && !r.context.isAsync) r.fail("'await' may stand in an async function and at the top of a module alone.");
  if (awaits) r.next();
  r.expect("(");
  return r.inBlock(() => {
    const head = forHead(r, awaits);
    if (r.kind === "in" || r.isWord("of")) return overEach(r, start, asLeft(r, head), awaits);
    r.settle();
    if (awaits) r.fail("'for await' takes what 'of' gives alone.");
    return counting(r, start, head);
  });
}

/** What stands in the head of a `for` before the first semicolon, `in` or `of`. */
function forHead(r, awaits) {
  if (r.kind === ";") return null;
  if (r.kind === "var" || r.kind === "const" || r.isWord("let")) return variables(r, true);
  if (awaits && r.isWord("async") && r.peek().value === "of") return r.identifier();
  return expressionOrPattern(r, true);
}

/** What gets a value in each turn. */
function asLeft(r, head) {
  if (head.type !== "VariableDeclaration") {
    r.pending = null;
    return asTarget(r, head);
  }
  const [{ init }] = head.declarations;
  if (head.declarations.length > 1) r.fail("One declaration may stand here.", head.start, head.end);
  if (init !== null) r.fail("No value may stand here, as each turn gives one.", init.start, init.end);
  return head;
}

function overEach(r, start, left, awaits) {
  const isIn = r.kind === "in";
  if (isIn && awaits) r.fail("'for await' takes what 'of' gives alone.");
  r.next();
  const right = isIn ? expression(r) : assignment(r);
  r.expect(")");
  const body = loopBody(r);
  if (isIn) return { type: "ForInStatement", start, end: r.lastEnd, left, right, body };
  return { type: "ForOfStatement", start, end: r.lastEnd, await: awaits, left, right, body };
}

function counting(r, start, init) {
  r.expect(";");
  const test = r.kind === ";" ? null : expression(r);
  r.expect(";");
  const update = r.kind === ")" ? null : expression(r);
  r.expect(")");
  const body = loopBody(r);
  return { type: "ForStatement", start, end: r.lastEnd, init, test, update, body };
}
