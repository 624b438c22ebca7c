// Which names a script declares where, and which of them functions within use.
//
// A scope is a program, a function, a block, a loop, a catch or a class. A name that a function within uses is captured: it
// lives in an object of the plan, as in an environment record. Names of the top of an agent are never captured, since they last
// as long as the agent.

const FUNCTIONS = new Set(["FunctionDeclaration", "FunctionExpression", "ArrowFunctionExpression"]);
const BLOCKS = new Set([
  "Program", "BlockStatement", "ForStatement", "ForInStatement", "ForOfStatement", "CatchClause", "SwitchStatement", "ClassDeclaration",
  "ClassExpression", "StaticBlock",
]);

const isFunction = (node) => FUNCTIONS.has(node.type);

class Declared {
  /** By name: `kind` (var, let, const, function, class, param, self), and whether it is `captured`. */
  names = new Map();
  /** The names that are read in it and declared around it. */
  free = new Set();

  constructor(outer, owner, isTop) {
    Object.assign(this, { outer, owner, isTop });
  }

  declare(name, kind) {
    if (!this.names.has(name) || this.names.get(name).kind === "self") this.names.set(name, { kind, captured: false });
  }

  captured() {
    return [...this.names].filter(([, { captured }]) => captured).map(([name]) => name);
  }
}

/** The names of a pattern. */
function* namesOf(pattern) {
  switch (pattern?.type) {
    case "Identifier": yield pattern.name; break;
    case "ObjectPattern": for (const one of pattern.properties) yield* namesOf(one.value ?? one.argument); break;
    case "ArrayPattern": for (const one of pattern.elements) yield* namesOf(one); break;
    case "AssignmentPattern": yield* namesOf(pattern.left); break;
    case "RestElement": yield* namesOf(pattern.argument); break;
  }
}

class Analysis {
  scopes = new Map();
  #uses = [];

  constructor(program) {
    this.#enter(program, null);
    for (const use of this.#uses) this.#resolve(use);
  }

  #enter(node, outer, isTop = node.type === "Program") {
    const isOwner = isFunction(node) || node.type === "Program" || node.type === "StaticBlock";
    const scope = new Declared(outer, isOwner ? node : outer.owner, isTop);
    this.scopes.set(node, scope);
    if (isFunction(node)) this.#enterFunction(node, scope);
    else {
      if (node.type === "CatchClause") for (const name of namesOf(node.param)) scope.declare(name, "param");
      if (node.type === "ClassExpression" && node.id) scope.declare(node.id.name, "const");
      this.#hoist(node, scope);
      this.#children(node, scope);
    }
  }

  #enterFunction(node, scope) {
    if (node.type === "FunctionExpression" && node.id) scope.declare(node.id.name, "self");
    for (const param of node.params) for (const name of namesOf(param)) scope.declare(name, "param");
    if (node.body.type === "BlockStatement") this.#hoist(node.body, scope);
    node.params.forEach((param) => this.#visit(param, scope));
    if (node.body.type === "BlockStatement") node.body.body.forEach((one) => this.#visit(one, scope));
    else this.#visit(node.body, scope);
  }

  /** Declares what stands directly in a block, and, where it is a function's or the program's, each `var` below it. */
  #hoist(node, scope) {
    const statements = Array.isArray(node.body) ? node.body : (node.cases?.flatMap((one) => one.consequent) ?? []);
    for (const one of [node.init, node.left, ...statements]) {
      if (one?.type === "VariableDeclaration" && one.kind !== "var") {
        for (const { id } of one.declarations) for (const name of namesOf(id)) scope.declare(name, one.kind);
      }
      if (one?.type === "FunctionDeclaration") scope.declare(one.id.name, "function");
      if (one?.type === "ClassDeclaration") scope.declare(one.id.name, "class");
    }
    if (scope.owner !== scope.outer?.owner) this.#hoistVars(node, scope);
  }

  #hoistVars(node, scope) {
    for (const one of childrenOf(node)) {
      if (isFunction(one)) continue;
      if (one.type === "VariableDeclaration" && one.kind === "var") {
        for (const { id } of one.declarations) for (const name of namesOf(id)) scope.declare(name, "var");
      }
      this.#hoistVars(one, scope);
    }
  }

  #children(node, scope) {
    for (const one of childrenOf(node)) this.#visit(one, scope);
  }

  #visit(node, scope) {
    if (node === null) return;
    if (node.type === "Identifier") this.#uses.push({ name: node.name, scope, isRead: true });
    else if (isAssigned(node)) this.#assignment(node, scope);
    else if (isFunction(node) || BLOCKS.has(node.type)) this.#enter(node, scope);
    else if (node.type === "PropertyDefinition") this.#field(node, scope);
    else if (isAgentCall(node)) node.arguments.forEach((one) => this.#visitOfAgent(one, scope));
    else this.#children(node, scope);
  }

  /** A variable that gets a value is used, and not read. */
  #assignment({ left, right }, scope) {
    this.#uses.push({ name: left.name, scope, isRead: false });
    this.#visit(right, scope);
  }

  #visitOfAgent(node, scope) {
    if (isFunction(node)) this.#enter(node, scope, true);
    else this.#visit(node, scope);
  }

  /** The value of a field is made later, as by a function. */
  #field(node, scope) {
    if (node.computed) this.#visit(node.key, scope);
    if (node.value) {
      const within = new Declared(scope, node, false);
      this.#visit(node.value, within);
    }
  }

  #resolve({ name, scope, isRead }) {
    let found = scope;
    for (; found !== null && !found.names.has(name); found = found.outer) if (isRead) found.free.add(name);
    if (found !== null && !found.isTop && found.owner !== scope.owner) found.names.get(name).captured = true;
  }
}

const isAssigned = ({ type, operator, left }) => type === "AssignmentExpression" && operator === "=" && left.type === "Identifier";

/** A call that begins an agent: the function's names are the top of that agent. */
const isAgentCall = (node) => node.type === "CallExpression" && node.callee.type === "Identifier" && node.callee.name === "agent";

/** The nodes below one, without names that are no variables. */
function* childrenOf(node) {
  for (const [key, value] of Object.entries(node)) {
    if (key === "label" || (!node.computed && isNamed(node, key))) continue;
    for (const one of Array.isArray(value) ? value : [value]) {
      if (typeof one?.type === "string" && typeof one.start === "number") yield one;
    }
  }
}

const isNamed = ({ type }, key) =>
  (key === "property" && type === "MemberExpression") ||
  (key === "key" && ["Property", "MethodDefinition", "PropertyDefinition"].includes(type)) ||
  (key === "id" && /^(Function|Class)/.test(type));

/** The scopes of a script, by their nodes. */
export function scopesOf(program) {
  return new Analysis(program).scopes;
}
