// What the grammar's functions share: the tokens, and what surrounds the place that is read.

import { Scope } from "./scope.mjs";
import { END, NAME, NUMBER, PRIVATE, TEXT, Tokens } from "./tokens.mjs";
import { KEYWORDS, RESERVED } from "./words.mjs";

/** What may stand at the top of a module; a function has one of its own. */
const TOP = {
  /** Whether `return`, `await` and `yield` may stand here, and whether the parameters of a function are read, where the last two may not. */
  mayReturn: false, isAsync: true, isGenerator: false, isInParameters: false,
  /** Whether `super.x`, `super()`, `new.target` and `arguments` may. */
  hasSuper: false, hasSuperCall: false, hasNewTarget: false, hasArguments: true,
  /** Where the first `await` or `yield` stands of an expression that may turn out to be parameters; else below 0. */
  suspendsAt: -1,
};

export class Reader extends Tokens {
  constructor(source) {
    super(source);
    this.scope = new Scope("module", null);
    this.context = { ...TOP, labels: [] };
    /** The private names of the innermost class; null outside of classes. */
    this.privateNames = null;
    /** A fault of an object literal, unless it turns out to be a pattern: its sentence and its place. */
    this.pending = null;
    /** Where an expression begins that may be an arrow function. */
    this.arrowAt = -1;
    /** The expressions that stand in parentheses, and the spread ones that a comma follows. */
    this.parenthesized = new Set();
    this.spreadBeforeComma = new Set();
    /** What the module exports, and the names among it that have to be declared. */
    this.exported = new Set();
    this.exportedHere = [];
  }

  // Tokens

  /** Goes past a token of this kind, and says whether it stood here. */
  eat(kind) {
    if (this.kind !== kind) return false;
    this.next();
    return true;
  }

  expect(kind) {
    if (!this.eat(kind)) this.fail(`'${kind}' is expected here, and there is ${this.found()}.`);
  }

  /** Goes past the comma between parts of a list; its closing sign may stand here too, which is not passed. */
  comma(closing) {
    if (this.kind !== closing && !this.eat(",")) this.fail(`',' or '${closing}' is expected here, and there is ${this.found()}.`);
  }

  /** Whether the token is this word, which is a name elsewhere. */
  isWord(word) {
    return this.kind === NAME && this.value === word && !this.isEscaped;
  }

  eatWord(word) {
    if (!this.isWord(word)) return false;
    this.next();
    return true;
  }

  expectWord(word) {
    if (!this.eatWord(word)) this.fail(`'${word}' is expected here, and there is ${this.found()}.`);
  }

  /** Whether the token may be the name of a property. */
  isAnyName() {
    return this.kind === NAME || KEYWORDS.has(this.kind);
  }

  /** Whether the token begins the key of a property or of a class's element. */
  isKeyStart() {
    return this.kind === NUMBER || this.kind === TEXT || this.kind === "[" || this.kind === PRIVATE || this.isAnyName();
  }

  /** Whether a statement may end here without a semicolon (ECMA-262, 12.10). */
  mayEnd() {
    return this.kind === ";" || this.kind === "}" || this.kind === END || this.isAfterLine;
  }

  semicolon() {
    if (!this.eat(";") && !this.mayEnd()) this.fail(`The statement should have ended before ${this.found()}.`);
  }

  /** The token in words. */
  found() {
    if (this.kind === END) return "the end of the script";
    if (this.kind === NAME) return `the name '${this.value}'`;
    return this.kind === TEXT ? "a text" : `'${this.source.slice(this.start, this.end)}'`;
  }

  unexpected() {
    if (this.kind === END) this.fail("The script ends here, and more is expected.");
    return this.fail(`${this.found().replace(/^[a-z]/, (letter) => letter.toUpperCase())} can't stand here.`);
  }

  // Names

  /** The name that stands here, which must be one that may be used. */
  identifier() {
    if (this.kind !== NAME) this.unexpected();
    const { start, value } = this;
    this.checkName(value, this);
    this.next();
    return { type: "Identifier", start, end: this.lastEnd, name: value };
  }

  checkName(name, { start, end }) {
    if (RESERVED.has(name) || KEYWORDS.has(name)) this.fail(`'${name}' is reserved and is no name.`, start, end);
    if (name === "arguments" && !this.context.hasArguments) this.fail("'arguments' can't stand in a field's value or a static block.", start, end);
  }

  /** A name that gets a value. */
  checkAssigned({ name, start, end }) {
    if (name === "eval" || name === "arguments") this.fail(`'${name}' can't get a value.`, start, end);
  }

  /** Declares a name in the scope by one of its calls. */
  declare(node, call) {
    if (!this.scope[call](node.name)) this.fail(`'${node.name}' is declared in this scope already.`, node.start, node.end);
  }

  // What surrounds the place

  /** Reads by a call in a function's scope, with what may stand in it. */
  inFunction(context, read) {
    const { context: outer, pending } = this;
    this.context = { ...context, labels: [], suspendsAt: -1 };
    this.pending = null;
    this.scope = new Scope("function", this.scope);
    const node = read();
    this.scope = this.scope.outer;
    this.context = outer;
    this.pending = pending;
    return node;
  }

  inBlock(read) {
    this.scope = new Scope("block", this.scope);
    const node = read();
    this.scope = this.scope.outer;
    return node;
  }

  /** Refuses what was only right in a pattern, as this is none. */
  settle() {
    if (this.pending !== null) this.fail(this.pending.message, this.pending.start, this.pending.end);
  }
}
