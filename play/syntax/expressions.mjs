// Expressions from the comma down to calls and members (ECMA-262, 13.3 to 13.16). `noIn` says that the operator `in` ends
// the expression, as in the head of a `for`.

import { templateLiteral, primary } from "./primary.mjs";
import { privateName } from "./classes.mjs";
import { asTarget, checkSimpleTarget } from "./patterns.mjs";
import { anyName } from "./objects.mjs";
import { PRIVATE } from "./tokens.mjs";
import { ASSIGNMENTS, BINDING } from "./words.mjs";

export function expression(r, noIn = false) {
  const { start } = r, first = assignment(r, noIn);
  return r.kind === "," ? sequence(r, start, first, noIn) : first;
}

/** An expression that may turn out to be a pattern, as in the head of a `for`. */
export function expressionOrPattern(r, noIn) {
  const { start } = r, first = assignmentOrPattern(r, noIn);
  return r.kind === "," ? sequence(r, start, first, noIn) : first;
}

function sequence(r, start, first, noIn) {
  const expressions = [first];
  while (r.eat(",")) expressions.push(assignment(r, noIn));
  return { type: "SequenceExpression", start, end: r.lastEnd, expressions };
}

/** An expression without a comma. */
export function assignment(r, noIn = false) {
  const outer = r.pending;
  r.pending = null;
  const node = assignmentOrPattern(r, noIn);
  r.settle();
  r.pending = outer;
  return node;
}

/** The same, which may turn out to be a pattern: what is only right in one waits as `pending`. */
export function assignmentOrPattern(r, noIn = false) {
  if (r.isWord("yield")) return yieldExpression(r, noIn);
  const { start, pending: outer } = r;
  if (r.kind === "(" || r.kind === "name") r.arrowAt = start;
  r.pending = null;
  let left = conditional(r, noIn);
  const operator = r.kind;
  if (!ASSIGNMENTS.has(operator) || isBareArrow(r, left)) {
    r.pending = outer ?? r.pending;
    return left;
  }
  if (operator === "=") left = asTarget(r, left);
  else checkSimpleTarget(r, left);
  r.pending = outer;
  r.next();
  const right = assignment(r, noIn);
  return { type: "AssignmentExpression", start, end: r.lastEnd, operator, left, right };
}

/** Whether this is an arrow function without parentheses, which is no operand. */
const isBareArrow = (r, node) => node.type === "ArrowFunctionExpression" && !r.parenthesized.has(node);

function yieldExpression(r, noIn) {
  const { start } = r;
  if (!r.context.isGenerator) r.fail("'yield' may stand in a generator alone.");
  suspend(r, "yield");
  r.next();
  const isAlone = r.isAfterLine || [")", "]", "}", ",", ";", ":", "in", "end"].includes(r.kind) || r.isWord("of");
  const delegate = !isAlone && r.eat("*");
  const argument = isAlone ? null : assignment(r, noIn);
  return { type: "YieldExpression", start, end: r.lastEnd, delegate, argument };
}

/** Notes an `await` or a `yield`, which may not stand in parameters. */
function suspend(r, word) {
  if (r.context.isInParameters) r.fail(`'${word}' can't stand in the parameters of a function.`);
  if (r.context.suspendsAt < 0) r.context.suspendsAt = r.start;
}

function conditional(r, noIn) {
  const { start } = r, test = binary(r, 0, noIn);
  if (r.kind !== "?" || isBareArrow(r, test)) return test;
  r.next();
  const consequent = assignment(r);
  r.expect(":");
  const alternate = assignment(r, noIn);
  return { type: "ConditionalExpression", start, end: r.lastEnd, test, consequent, alternate };
}

const isLogical = (operator) => operator === "&&" || operator === "||" || operator === "??";

/** Operands with operators between them that bind tighter than `least`. */
function binary(r, least, noIn) {
  const { start } = r;
  let left = r.kind === PRIVATE ? privateOperand(r, least, noIn) : power(r, noIn);
  if (isBareArrow(r, left)) return left;
  for (;;) {
    const operator = r.kind, binding = operator === "in" && noIn ? 0 : BINDING.get(operator) ?? 0;
    if (binding <= least) return left;
    const at = { start: r.start, end: r.end };
    r.next();
    const right = binary(r, binding, noIn);
    if (isLogical(operator)) checkMixture(r, operator, at, [left, right]);
    left = { type: isLogical(operator) ? "LogicalExpression" : "BinaryExpression", start, end: r.lastEnd, left, operator, right };
  }
}

/** Refuses `??` beside `||` or `&&` without parentheses. */
function checkMixture(r, operator, at, operands) {
  const isOdd = (node) => node.type === "LogicalExpression" && (node.operator === "??") !== (operator === "??") && !r.parenthesized.has(node);
  if (operands.some(isOdd)) r.fail("'??' beside '||' or '&&' needs parentheses.", at.start, at.end);
}

/** A private name, which is an operand of `in` alone. */
function privateOperand(r, least, noIn) {
  const name = privateName(r);
  if (r.kind !== "in" || noIn || least >= BINDING.get("in")) r.fail("A private name is an operand only on the left of 'in'.", name.start, name.end);
  return name;
}

const PREFIXES = new Set(["!", "~", "+", "-", "typeof", "void", "delete"]);

/** An operand, or a power of one; powers bind from the right. */
function power(r, noIn) {
  const { start } = r, left = operand(r, noIn);
  if (r.kind !== "**" || isBareArrow(r, left)) return left;
  const isPrefixed = left.type === "UnaryExpression" || left.type === "AwaitExpression";
  if (isPrefixed && !r.parenthesized.has(left)) r.fail("What stands before '**' needs parentheses here.", left.start, left.end);
  r.next();
  const right = power(r, noIn);
  return { type: "BinaryExpression", start, end: r.lastEnd, left, operator: "**", right };
}

/** An operand, with the operators before or behind it. */
function operand(r, noIn) {
  const { kind } = r;
  if (r.isWord("await")) return awaitExpression(r, noIn);
  if (PREFIXES.has(kind)) return prefixed(r, noIn);
  return kind === "++" || kind === "--" ? countedFirst(r, noIn) : counted(r, noIn);
}

function awaitExpression(r, noIn) {
  const { start } = r;
  if (!r.context.isAsync) r.fail("'await' may stand in an async function and at the top of a module alone.");
  suspend(r, "await");
  r.next();
  const argument = operand(r, noIn);
  return { type: "AwaitExpression", start, end: r.lastEnd, argument };
}

function prefixed(r, noIn) {
  const { start, kind: operator } = r;
  r.next();
  const argument = operand(r, noIn);
  if (operator === "delete") checkDeleted(r, argument);
  return { type: "UnaryExpression", start, end: r.lastEnd, operator, prefix: true, argument };
}

function checkDeleted(r, node) {
  if (node.type === "Identifier") r.fail("A name can't be deleted; a property can.", node.start, node.end);
  const member = node.type === "ChainExpression" ? node.expression : node;
  if (member.property?.type === "PrivateIdentifier") r.fail("A private field can't be deleted.", node.start, node.end);
}

function countedFirst(r, noIn) {
  const { start, kind: operator } = r;
  r.next();
  const argument = operand(r, noIn);
  checkSimpleTarget(r, argument);
  return { type: "UpdateExpression", start, end: r.lastEnd, operator, prefix: true, argument };
}

function counted(r, noIn) {
  const { start } = r, argument = leftHandSide(r, noIn);
  if ((r.kind !== "++" && r.kind !== "--") || r.isAfterLine || isBareArrow(r, argument)) return argument;
  checkSimpleTarget(r, argument);
  const operator = r.kind;
  r.next();
  return { type: "UpdateExpression", start, end: r.lastEnd, operator, prefix: false, argument };
}

// Members and calls

/** What may stand on the left of an assignment by its form: a primary expression with members and calls. */
export function leftHandSide(r, noIn = false) {
  const { start } = r, node = primary(r, noIn);
  return isBareArrow(r, node) ? node : subscripts(r, start, node, true);
}

/** An expression with the members and, if `calls`, the calls that follow it. */
export function subscripts(r, start, first, calls) {
  let node = first, isChain = false;
  for (;;) {
    const optional = r.kind === "?.";
    if (optional && !calls) r.fail("'?.' can't stand in what is made by 'new'.");
    const next = subscript(r, start, node, { calls, optional, isChain: isChain || optional });
    if (next === node) break;
    isChain ||= optional;
    node = next;
  }
  return isChain ? { type: "ChainExpression", start, end: r.lastEnd, expression: node } : node;
}

function subscript(r, start, node, { calls, optional, isChain }) {
  if (!optional && !SUBSCRIPTS.has(r.kind)) return node;
  if (!optional && r.kind === "(" && !calls) return node;
  // What follows may get a value, and then this is no pattern of it.
  r.settle();
  if (optional) r.next();
  if (r.kind === "[") return computedMember(r, start, node, optional);
  if (r.kind === "(") return call(r, start, node, optional);
  if (r.kind === "`") return tagged(r, start, node, isChain);
  if (!optional) r.next();
  const property = r.kind === PRIVATE && node.type !== "Super" ? privateName(r) : anyName(r);
  return { type: "MemberExpression", start, end: r.lastEnd, object: node, property, computed: false, optional };
}

const SUBSCRIPTS = new Set([".", "[", "(", "`"]);

function computedMember(r, start, object, optional) {
  r.next();
  const property = expression(r);
  r.expect("]");
  return { type: "MemberExpression", start, end: r.lastEnd, object, property, computed: true, optional };
}

function call(r, start, callee, optional) {
  const list = callArguments(r);
  return { type: "CallExpression", start, end: r.lastEnd, callee, arguments: list, optional };
}

function tagged(r, start, tag, isChain) {
  if (isChain) r.fail("A template can't follow '?.'.");
  const quasi = templateLiteral(r, true);
  return { type: "TaggedTemplateExpression", start, end: r.lastEnd, tag, quasi };
}

/** The arguments of a call, with their parentheses. */
export function callArguments(r) {
  const outer = r.pending;
  r.pending = null;
  r.next();
  const list = elements(r, ")");
  r.next();
  r.settle();
  r.pending = outer;
  return list;
}

/** The elements of a list up to a sign: expressions that may turn out to be patterns, and spread ones; if
    `holes`, none (null) where a comma stands alone. */
export function elements(r, closing, holes = false) {
  const list = [];
  while (r.kind !== closing) {
    if (holes && r.kind === ",") list.push(null);
    else list.push(r.kind === "..." ? spread(r) : assignmentOrPattern(r));
    if (r.kind === closing) break;
    if (r.kind === "," && list.at(-1)?.type === "SpreadElement") r.spreadBeforeComma.add(list.at(-1));
    r.comma(closing);
  }
  return list;
}

function spread(r) {
  const { start } = r;
  r.next();
  const argument = assignmentOrPattern(r);
  return { type: "SpreadElement", start, end: r.lastEnd, argument };
}
