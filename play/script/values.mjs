// The values of a script. Undefined, null, booleans, numbers and texts are those of JavaScript itself; objects and symbols are
// these classes.

/** An object of the script. One with a number is an object of the plan; one without has not been needed there yet. */
export class Thing {
  /** The number that the plan gives to the object, 0 before it has one. */
  number = 0;
  isEmptied = false;
  /** The properties that the script sees: by key, each with `value`, or with `get` and `set`. */
  properties = new Map();
  /** What the plan's object holds: values by the property's key in the plan. */
  edges = new Map();
  /** The variables of the plan that hold it. */
  variables = new Set();
  /** What holds it while it has no number: bindings, and other things. */
  holders = new Set();
  isExtensible = true;

  constructor(kind, proto = null) {
    this.kind = kind;
    this.proto = proto;
  }

  /** What it holds is in the plan now: so it must be there itself. */
  isNowInPlan(writer, node, thing, temporaries) {
    if (this.number === 0) writer.materialize(node, this, temporaries);
  }
}

/** A symbol: registered by a text, one that the language knows, or one of the script. */
export class Sym {
  number = 0;
  isEmptied = false;
  variables = new Set();

  constructor(description, { registered = false, known = false } = {}) {
    Object.assign(this, { description, registered, known });
  }
}

/** The name of a private member, as a class has it anew each time it is evaluated. */
export class PrivateName {
  constructor(name) {
    this.name = name;
  }
}

/** The symbols that the language knows. */
export const KNOWN = {
  iterator: new Sym("Symbol.iterator", { known: true }),
  asyncIterator: new Sym("Symbol.asyncIterator", { known: true }),
  hasInstance: new Sym("Symbol.hasInstance", { known: true }),
  toPrimitive: new Sym("Symbol.toPrimitive", { known: true }),
  toStringTag: new Sym("Symbol.toStringTag", { known: true }),
};

export const isThing = (value) => value instanceof Thing;
export const isCallable = (value) => isThing(value) && value.kind === "function";
/** Whether a value has an identity of its own, which a collection may empty: the plan must hold it. */
export const hasIdentity = (value) => isThing(value) || (value instanceof Sym && !value.registered && !value.known);
/** What stands for a value in the plan: for a view its buffer. */
export const planned = (value) => value?.stands ?? value;
/** Whether the plan has the value as an object or a symbol already. */
export const isInPlan = (value) => hasIdentity(value) && planned(value).number > 0;
/** CanBeHeldWeakly. */
export const canBeHeldWeakly = (value) => isThing(value) || (value instanceof Sym && !value.registered);

export function typeOf(value) {
  if (value === null) return "object";
  if (value instanceof Sym) return "symbol";
  if (isThing(value)) return value.kind === "function" ? "function" : "object";
  return typeof value;
}

const MOST_LETTERS = 256;
const ODD_LETTERS = /[^\x20-\x7e]|["\\]/g;
const SPELLED = { '"': "'", "\\": "/", "\n": " ", "\t": " " };

/** The literal of a plan that stands for a value without identity. Plans have fewer numbers and texts: others become texts. */
export function literalOf(value) {
  if (value === undefined || value === null || hasIdentity(value)) return null;
  if (typeof value === "boolean") return value;
  if (typeof value === "number" && Number.isSafeInteger(value) && !Object.is(value, -0)) return value;
  const text = value instanceof Sym ? value.description : Object.is(value, -0) ? "-0" : String(value);
  return text.replace(ODD_LETTERS, (letter) => SPELLED[letter] ?? "?").slice(0, MOST_LETTERS);
}
