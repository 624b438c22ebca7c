// Primary expressions: names, literals, what stands in parentheses, `new`, and the words that are expressions (ECMA-262, 13.2,
// 13.3.5, 13.3.7, 13.3.10 and 13.3.12).

import { classOf } from "./classes.mjs";
import { assignment, callArguments, elements, expression, subscripts } from "./expressions.mjs";
import { arrowFunction, functionOf } from "./functions.mjs";
import { unescaped } from "./literals.mjs";
import { anyName, objectLiteral } from "./objects.mjs";
import { SyntaxFault } from "./fault.mjs";

export function primary(r, noIn) {
  return (PRIMARIES[r.kind] ?? r.unexpected())(r, noIn);
}

const PRIMARIES = {
  __proto__: null,
  "name": nameOrArrow,
  "number": literal,
  "text": literal,
  "(": parenthesized,
  "[": arrayLiteral,
  "{": objectLiteral,
  "`": (r) => templateLiteral(r, false),
  "/": regularExpression,
  "/=": regularExpression,
  "function": (r) => functionOf(r, r.start, { isExpression: true }),
  "class": (r) => classOf(r, true),
  "new": newExpression,
  "super": superExpression,
  "import": importExpression,
  "this": (r) => {
    const { start } = r;
    r.next();
    return { type: "ThisExpression", start, end: r.lastEnd };
  },
  "null": (r) => word(r, null),
  "true": (r) => word(r, true),
  "false": (r) => word(r, false),
};

function word(r, value) {
  const { start, kind: raw } = r;
  r.next();
  return { type: "Literal", start, end: r.lastEnd, value, raw };
}

/** A number or a text. */
export function literal(r) {
  const { start, end, value } = r, raw = r.source.slice(start, end);
  r.next();
  if (typeof value === "bigint") return { type: "Literal", start, end, value, raw, bigint: raw.slice(0, -1).replaceAll("_", "") };
  return { type: "Literal", start, end, value, raw };
}

function regularExpression(r) {
  r.readRegularExpression();
  const { start, end, value: regex } = r;
  if (/[^dgimsuy]/.test(regex.flags)) r.fail(`'${regex.flags}' are no flags of a regular expression.`);
  r.next();
  try {
    const value = new RegExp(regex.pattern, regex.flags);
    return { type: "Literal", start, end, value, raw: r.source.slice(start, end), regex };
  } catch (error) {
    return r.fail(`This is no regular expression: ${error.message.replace(/^.*: /s, "")}.`, start, end);
  }
}

// Templates

/** A template. In a tagged one a backslash may stand before anything. */
export function templateLiteral(r, isTagged) {
  const { start } = r, expressions = [], quasis = [];
  let part = r.readTemplatePart(start);
  quasis.push(quasi(r, part, isTagged));
  while (!part.isLast) {
    expressions.push(expression(r));
    if (r.kind !== "}") r.expect("}");
    part = r.readTemplatePart(start);
    quasis.push(quasi(r, part, isTagged));
  }
  return { type: "TemplateLiteral", start, end: r.lastEnd, expressions, quasis };
}

function quasi(r, { start, end, isLast }, isTagged) {
  const raw = r.source.slice(start, end).replace(/\r\n?/g, "\n");
  return { type: "TemplateElement", start, end, value: { raw, cooked: cooked(r, start, end, isTagged) }, tail: isLast };
}

function cooked(r, start, end, isTagged) {
  try {
    return unescaped(r.source, start, end, r.fail);
  } catch (error) {
    if (isTagged && error instanceof SyntaxFault) return null;
    throw error;
  }
}

// Names, parentheses and arrow functions

const isArrow = (r) => r.kind === "=>" && !r.isAfterLine;

function nameOrArrow(r, noIn) {
  const { start } = r, mayBeArrow = r.arrowAt === start;
  if (r.isWord("async")) {
    const next = r.peek();
    if (next.kind === "function" && !next.isAfterLine) return functionOf(r, start, { isExpression: true });
    if (mayBeArrow && next.kind === "name" && !next.isAfterLine) return asyncArrow(r, start, noIn);
    if (mayBeArrow && next.kind === "(" && !next.isAfterLine) return asyncCall(r, start, noIn);
  }
  const name = r.identifier();
  return mayBeArrow && isArrow(r) ? arrowFunction(r, start, [name], { isAsync: false, noIn }) : name;
}

/** `async x => ..` */
function asyncArrow(r, start, noIn) {
  r.next();
  const name = r.identifier();
  if (r.kind !== "=>") r.expect("=>");
  if (r.isAfterLine) r.fail("'=>' belongs on the line of the parameters.");
  return arrowFunction(r, start, [name], { isAsync: true, noIn });
}

/** `async(..)`, which is a call of a function of this name, or `async (..) => ..`. */
function asyncCall(r, start, noIn) {
  const callee = r.identifier();
  const { list, isArrow: isFunction } = arguable(r);
  if (isFunction) return arrowFunction(r, start, list, { isAsync: true, noIn });
  return { type: "CallExpression", start, end: r.lastEnd, callee, arguments: list, optional: false };
}

/** A list in parentheses that is one of parameters if an arrow follows. Else what was only right in parameters is refused. */
function arguable(r) {
  const { context, pending: outer } = r, outerSuspendsAt = context.suspendsAt;
  r.pending = null;
  context.suspendsAt = -1;
  r.next();
  const first = r.start, list = elements(r, ")"), last = r.lastEnd;
  r.next();
  const found = { list, first, last, isArrow: isArrow(r) };
  if (!found.isArrow) r.settle();
  else if (context.suspendsAt >= 0) r.fail("'await' and 'yield' can't stand in the parameters of a function.", context.suspendsAt, context.suspendsAt + 5);
  r.pending = outer;
  if (outerSuspendsAt >= 0) context.suspendsAt = outerSuspendsAt;
  return found;
}

/** An expression in parentheses, or an arrow function that begins with its parameters in parentheses. */
function parenthesized(r, noIn) {
  const { start } = r, mayBeArrow = r.arrowAt === start;
  const { list, first, last, isArrow: isFunction } = arguable(r);
  if (isFunction && mayBeArrow) return arrowFunction(r, start, list, { isAsync: false, noIn });
  if (isFunction) r.unexpected();
  const odd = list.find(({ type }) => type === "SpreadElement");
  if (odd) r.fail("'...' stands here only in the parameters of an arrow function.", odd.start, odd.end);
  if (list.length === 0) r.fail("Something is expected between these parentheses.", start, r.lastEnd);
  if (r.source[last - 1] === ",") r.fail("Something is expected behind this comma.", last - 1, last);
  const node = list.length === 1 ? list[0] : { type: "SequenceExpression", start: first, end: last, expressions: list };
  r.parenthesized.add(node);
  return node;
}

function arrayLiteral(r) {
  const { start } = r;
  r.next();
  const list = elements(r, "]", true);
  r.next();
  return { type: "ArrayExpression", start, end: r.lastEnd, elements: list };
}

// Words

function newExpression(r) {
  const { start } = r, meta = anyName(r);
  if (r.eat(".")) return metaProperty(r, start, meta, "target", r.context.hasNewTarget);
  const from = r.start, isImport = r.kind === "import";
  const first = primary(r, false);
  if (isImport && first.type === "ImportExpression") r.fail("'import()' can't be made by 'new'.", first.start, first.end);
  const callee = subscripts(r, from, first, false);
  const list = r.kind === "(" ? callArguments(r) : [];
  return { type: "NewExpression", start, end: r.lastEnd, callee, arguments: list };
}

function metaProperty(r, start, meta, name, isAllowed) {
  const property = r.isWord(name) ? anyName(r) : r.unexpected();
  if (!isAllowed) r.fail(`'${meta.name}.${name}' can't stand here.`, start, r.lastEnd);
  return { type: "MetaProperty", start, end: r.lastEnd, meta, property };
}

function superExpression(r) {
  const { start, end } = r;
  r.next();
  if (!r.context.hasSuper) r.fail("'super' stands in methods alone.", start, end);
  if (r.kind === "(" && !r.context.hasSuperCall) r.fail("'super()' stands in the constructor of a class that extends another alone.", start, end);
  if (r.kind !== "(" && r.kind !== "." && r.kind !== "[") r.unexpected();
  return { type: "Super", start, end };
}

function importExpression(r) {
  const { start } = r, meta = anyName(r);
  if (r.eat(".")) return metaProperty(r, start, meta, "meta", true);
  r.expect("(");
  const source = assignment(r);
  r.expect(")");
  return { type: "ImportExpression", start, end: r.lastEnd, source };
}
