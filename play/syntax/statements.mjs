// Statements and declarations (ECMA-262, 14).

import { classOf } from "./classes.mjs";
import { assignment, expression } from "./expressions.mjs";
import { functionOf } from "./functions.mjs";
import { doStatement, forStatement, whileStatement } from "./loops.mjs";
import { bindingPattern, eachName } from "./patterns.mjs";
import { END } from "./tokens.mjs";

/** Statements and declarations up to a sign, which is not passed. */
export function statementList(r, closing) {
  const body = [];
  while (r.kind !== closing && r.kind !== END) body.push(listItem(r));
  return body;
}

/** A statement or a declaration. */
export function listItem(r) {
  if (r.kind === "const" || r.isWord("let")) return variableStatement(r);
  if (r.kind === "function" || isAsyncFunction(r)) return functionOf(r, r.start, {});
  if (r.kind === "class") return classOf(r, false);
  return statement(r);
}

export function isAsyncFunction(r) {
  if (!r.isWord("async")) return false;
  const next = r.peek();
  return next.kind === "function" && !next.isAfterLine;
}

/** A statement, where no declaration may stand. */
export function statement(r) {
  if (r.kind === "name") {
    if (r.isWord("let") || isAsyncFunction(r)) misplaced(r);
    return nameStatement(r);
  }
  return (STATEMENTS[r.kind] ?? expressionStatement)(r);
}

const STATEMENTS = {
  __proto__: null,
  "{": blockStatement,
  ";": (r) => word(r, "EmptyStatement"),
  "var": variableStatement,
  "if": ifStatement,
  "for": forStatement,
  "while": whileStatement,
  "do": doStatement,
  "switch": switchStatement,
  "break": jump,
  "continue": jump,
  "return": returnStatement,
  "throw": throwStatement,
  "try": tryStatement,
  "debugger": (r) => {
    const { start } = r;
    r.next();
    r.semicolon();
    return { type: "DebuggerStatement", start, end: r.lastEnd };
  },
  "with": (r) => r.fail("'with' can't stand in a module."),
  "const": misplaced,
  "class": misplaced,
  "function": misplaced,
  "export": (r) => r.fail("'export' stands at the top of a module alone."),
  "import": (r) => {
    const next = r.peek();
    if (next.kind !== "(" && next.kind !== ".") r.fail("'import' stands at the top of a module alone.");
    return expressionStatement(r);
  },
};

function misplaced(r) {
  return r.fail("A declaration needs braces around it here.");
}

function word(r, type) {
  const { start } = r;
  r.next();
  return { type, start, end: r.lastEnd };
}

// Expressions

function expressionStatement(r) {
  const { start } = r;
  return endExpression(r, start, expression(r));
}

function endExpression(r, start, node) {
  r.semicolon();
  return { type: "ExpressionStatement", start, end: r.lastEnd, expression: node };
}

/** Marks the texts with which a function or a module begins as directives. */
export function markDirectives(r, body) {
  for (const one of body) {
    const isText = one.type === "ExpressionStatement" && one.expression.type === "Literal" && typeof one.expression.value === "string";
    if (!isText || one.expression.start !== one.start) return;
    one.directive = one.expression.raw.slice(1, -1);
  }
}

// Labels

const LOOPS = new Set(["for", "while", "do"]);

/** A statement that begins with a name: an expression, or one with a label. */
function nameStatement(r) {
  const { start } = r, node = expression(r);
  if (r.kind !== ":" || node.type !== "Identifier") return endExpression(r, start, node);
  const { labels } = r.context;
  if (labels.some(({ name }) => name === node.name)) r.fail(`The label '${node.name}' stands around this already.`, node.start, node.end);
  r.next();
  const isLoop = LOOPS.has(r.kind);
  // A label before this one belongs to the same statement.
  for (const label of labels) if (label.at === start) Object.assign(label, { at: r.start, isLoop });
  labels.push({ name: node.name, at: r.start, isLoop });
  const body = statement(r);
  labels.pop();
  return { type: "LabeledStatement", start, end: r.lastEnd, body, label: node };
}

function jump(r) {
  const { start, end, kind } = r, isBreak = kind === "break";
  r.next();
  const label = r.mayEnd() ? null : r.identifier();
  const found = r.context.labels.filter(({ name, isLoop, isSwitch }) => (label ? name === label.name : isLoop || (isBreak && isSwitch)));
  if (label !== null && found.length === 0) r.fail(`No label '${label.name}' stands around this.`, label.start, label.end);
  if (label !== null && !isBreak && !found[0].isLoop) r.fail(`The label '${label.name}' is none of a loop.`, label.start, label.end);
  if (found.length === 0) r.fail(isBreak ? "'break' stands in a loop or a switch alone." : "'continue' stands in a loop alone.", start, end);
  r.semicolon();
  return { type: isBreak ? "BreakStatement" : "ContinueStatement", start, end: r.lastEnd, label };
}

// Declarations of variables

function variableStatement(r) {
  const node = variables(r);
  r.semicolon();
  node.end = r.lastEnd;
  return node;
}

/** What `var`, `let` or `const` declares. In the head of a `for` a name may have no value. */
export function variables(r, isInHead = false) {
  const { start, value: kind } = r, declarations = [];
  r.next();
  do declarations.push(declarator(r, kind, isInHead)); while (r.eat(","));
  return { type: "VariableDeclaration", start, end: r.lastEnd, declarations, kind };
}

function declarator(r, kind, isInHead) {
  const { start } = r, id = bindingPattern(r);
  eachName(id, (name) => r.declare(name, kind === "var" ? "declareVariable" : "declareLexical"));
  if (r.eat("=")) {
    const init = assignment(r, isInHead);
    return { type: "VariableDeclarator", start, end: r.lastEnd, id, init };
  }
  const needsValue = !(isInHead && (r.kind === "in" || r.isWord("of")));
  if (needsValue && kind === "const") r.fail("A constant needs a value.", id.start, id.end);
  if (needsValue && id.type !== "Identifier") r.fail("A pattern needs a value.", id.start, id.end);
  return { type: "VariableDeclarator", start, end: r.lastEnd, id, init: null };
}

// Blocks and branches

export function blockStatement(r) {
  return r.inBlock(() => block(r));
}

/** A block in the scope that is there. */
function block(r) {
  const { start } = r;
  r.expect("{");
  const body = statementList(r, "}");
  r.expect("}");
  return { type: "BlockStatement", start, end: r.lastEnd, body };
}

/** An expression in parentheses, as statements begin with. */
export function condition(r) {
  r.expect("(");
  const node = expression(r);
  r.expect(")");
  return node;
}

function ifStatement(r) {
  const { start } = r;
  r.next();
  const test = condition(r), consequent = statement(r);
  const alternate = r.eat("else") ? statement(r) : null;
  return { type: "IfStatement", start, end: r.lastEnd, test, consequent, alternate };
}

function switchStatement(r) {
  const { start } = r;
  r.next();
  const discriminant = condition(r), { labels } = r.context;
  labels.push({ name: null, isLoop: false, isSwitch: true });
  r.expect("{");
  const cases = r.inBlock(() => switchCases(r));
  r.expect("}");
  labels.pop();
  return { type: "SwitchStatement", start, end: r.lastEnd, discriminant, cases };
}

function switchCases(r) {
  const cases = [];
  while (r.kind !== "}") {
    const { start, kind } = r;
    if (kind !== "case") r.expect("default");
    else r.next();
    if (kind === "default" && cases.some(({ test }) => test === null)) r.fail("A switch has one 'default'.", start, r.lastEnd);
    const test = kind === "case" ? expression(r) : null;
    r.expect(":");
    const consequent = [];
    while (!["case", "default", "}", END].includes(r.kind)) consequent.push(listItem(r));
    cases.push({ type: "SwitchCase", start, end: r.lastEnd, consequent, test });
  }
  return cases;
}

// Ends

function returnStatement(r) {
  const { start } = r;
  if (!r.context.mayReturn) r.fail("'return' stands in a function alone.");
  r.next();
  const argument = r.mayEnd() ? null : expression(r);
  r.semicolon();
  return { type: "ReturnStatement", start, end: r.lastEnd, argument };
}

function throwStatement(r) {
  const { start, end } = r;
  r.next();
  if (r.isAfterLine) r.fail("What is thrown begins on the line of 'throw'.", start, end);
  const argument = expression(r);
  r.semicolon();
  return { type: "ThrowStatement", start, end: r.lastEnd, argument };
}

function tryStatement(r) {
  const { start, end } = r;
  r.next();
  const tried = blockStatement(r);
  const handler = r.kind === "catch" ? r.inBlock(() => catchClause(r)) : null;
  const finalizer = r.eat("finally") ? blockStatement(r) : null;
  if (handler === null && finalizer === null) r.fail("'try' needs a 'catch' or a 'finally'.", start, end);
  return { type: "TryStatement", start, end: r.lastEnd, block: tried, handler, finalizer };
}

function catchClause(r) {
  const { start } = r;
  r.next();
  let param = null;
  if (r.eat("(")) {
    param = bindingPattern(r);
    eachName(param, (name) => r.declare(name, param.type === "Identifier" ? "declareCaught" : "declareLexical"));
    r.expect(")");
  }
  const body = block(r);
  return { type: "CatchClause", start, end: r.lastEnd, param, body };
}
