// What of a script hangs on a choice of the engine, by its text: a statement that the choice does not leave, variables that
// have it, or all that follows.

import { partsOf } from "./statements.mjs";

/** Methods that change nothing, unless the script has one of this name. */
const LOOK_UPS = new Set(["deref", "has", "get", "unregister", "is"]);
/** What may leave a statement, or change something outside of it. */
const LEAVING = new Set([
  "AssignmentExpression", "UpdateExpression", "NewExpression", "AwaitExpression", "YieldExpression", "ReturnStatement", "ThrowStatement",
  "BreakStatement", "ContinueStatement", "TaggedTemplateExpression", "ArrowFunctionExpression", "FunctionExpression",
  "FunctionDeclaration", "ClassDeclaration", "ClassExpression", "ForStatement", "ForInStatement", "ForOfStatement", "WhileStatement",
  "DoWhileStatement", "TryStatement", "ImportExpression",
]);

export class Effects {
  constructor(statements) {
    this.statements = statements.filter(({ isParameters }) => !isParameters);
    this.all = new Set(statements.flatMap(({ node }) => [...within(node)]));
    this.own = new Set([...this.all].flatMap(nameOfMethod));
    /** The names of variables that have a choice, each with why an engine may choose. */
    this.names = new Map();
    /** The statements that have one, each with why an engine may choose. */
    this.nodes = new Map();
    /** Why all that follows hangs on a choice; null where it does not. */
    this.ofAll = null;
  }

  get isAll() {
    return this.ofAll !== null;
  }

  get hasChosen() {
    return this.isAll || this.names.size > 0;
  }

  /** Why what stands at a place hangs on a choice: it stands in a statement that has one, or has one in it. Null where it does
      not. */
  reasonAt(place) {
    const found = [...this.nodes].find(([node]) => has(node, place) || has(place, node));
    return found?.[1] ?? null;
  }

  /** A statement asked for what an engine may choose, for some reason; null of one that is not known. */
  choose(node, reason) {
    if (this.isAll || this.nodes.has(node)) return;
    const given = node && givenNames(node);
    if (given && given.parts.every((part) => this.isContained(part))) {
      this.nodes.set(node, reason);
      for (const name of given.names) this.nameIsChosen(name, reason);
      return;
    }
    if (node) this.nodes.set(node, reason);
    if (!node || !isWhole(node) || !this.isContained(node)) this.ofAll = reason;
  }

  nameIsChosen(name, reason) {
    if (this.names.has(name)) return;
    this.names.set(name, reason);
    for (const { node } of this.statements) if (mentions(node, name)) this.choose(node, reason);
  }

  /** A FinalizationRegistry is made: from now on its callback may be called at any time. */
  begin(node, reason) {
    const made = node && [...within(node)].find(({ type, callee }) => type === "NewExpression" && callee.name === "FinalizationRegistry");
    this.beginCall(made && this.functionOf(made.arguments[0]), reason);
  }

  /** A function may be called at any time from now on, unless it is not known. It prints, and that is all, or what it changes hangs
      on a choice. */
  beginCall(callee, reason) {
    if (!callee) this.ofAll ??= reason;
    else for (const part of partsOfBody(callee)) if (!this.isQuiet(part)) this.choose(part, reason);
  }

  /** Whether all that a function at some place does is to print. */
  onlyPrints(place) {
    return partsOfBody(this.functionAt(place)).every((part) => this.isQuiet(part));
  }

  isQuiet(node) {
    return !givenNames(node) && this.isContained(node);
  }

  functionAt({ start, end }) {
    return [...this.all].find((node) => node.start === start && node.end === end && node.body);
  }

  /** The function that an expression is, or that its name was declared as. */
  functionOf(node) {
    if (node?.type === "ArrowFunctionExpression" || node?.type === "FunctionExpression") return node;
    if (node?.type !== "Identifier") return null;
    return this.statements.map((one) => one.node).find(({ type, id }) => type === "FunctionDeclaration" && id.name === node.name) ?? null;
  }

  /** Whether nothing outside of a part hangs on what happens in it. */
  isContained(node) {
    return [...within(node)].every((part) => {
      if (LEAVING.has(part.type) || (part.type === "UnaryExpression" && part.operator === "delete")) return false;
      if (part.type === "CallExpression") return this.isLookUp(part);
      return part.type !== "MemberExpression" || part.optional || this.isSure(part);
    });
  }

  isLookUp({ callee }) {
    if (callee.type !== "MemberExpression" || callee.computed || callee.object.type !== "Identifier") return false;
    return callee.object.name === "console" || (LOOK_UPS.has(callee.property.name) && !this.own.has(callee.property.name));
  }

  /** Whether a property is read of what no choice makes undefined, and by no function of the script. */
  isSure({ object, property, computed }) {
    return object.type === "Identifier" && !this.names.has(object.name) && !computed && !this.own.has(property.name);
  }
}

/** Whether a part of the text has another one in it. */
const has = (one, other) => one.start <= other.start && other.end <= one.end;

/** A node and all in it. */
function* within(node) {
  yield node;
  for (const part of partsOf(node)) yield* within(part);
}

function nameOfMethod({ type, key, kind, method }) {
  const isMethod = type === "MethodDefinition" || (type === "Property" && (method || kind !== "init"));
  return isMethod && key.type === "Identifier" ? [key.name] : [];
}

const partsOfBody = ({ body }) => (body.type === "BlockStatement" ? body.body : [body]);

/** Whether a node is a whole statement, which gives nothing to what stands around it. */
const isWhole = ({ type }) => type === "ExpressionStatement" || type === "IfStatement" || type === "BlockStatement";

/** The variables that a statement gives values, and what it finds these values by; null where it does something else. */
function givenNames(node) {
  if (node.type === "VariableDeclaration" && node.declarations.every(({ id }) => id.type === "Identifier")) {
    return { names: node.declarations.map(({ id }) => id.name), parts: node.declarations.flatMap(({ init }) => init ?? []) };
  }
  const expression = node.expression ?? node;
  if (expression.type !== "AssignmentExpression" && expression.type !== "UpdateExpression") return null;
  const to = expression.left ?? expression.argument;
  return to.type === "Identifier" ? { names: [to.name], parts: expression.right ? [expression.right] : [] } : null;
}

/** Whether a name stands in the own words of a statement: those of statements in it count for themselves. */
function mentions(node, name) {
  return [...ownWords(node)].some((part) => part.type === "Identifier" && part.name === name);
}

function* ownWords(node) {
  yield node;
  for (const part of partsOf(node)) if (!/Statement$|Declaration$/.test(part.type)) yield* ownWords(part);
}
