// What the language brings along for each agent: prototypes, constructors and functions. Each file of built-ins adds its own.

import { raise } from "./core.mjs";
import { ScriptFault } from "./faults.mjs";
import { invoke } from "./functions.mjs";
import { callSuper, instance } from "./classes.mjs";
import { begin } from "./promises.mjs";
import { findProperty } from "./properties.mjs";
import { KNOWN, Sym, Thing, hasIdentity, isThing, planned } from "./values.mjs";

const KINDS = [
  "object", "function", "array", "string", "number", "boolean", "symbol", "map", "set", "weakref", "weakmap", "weakset", "registry", "promise",
  "buffer", "view", "Uint32Array", "Int32Array", "iterator", "generator", "asyncGenerator", "Error",
];
const BY_CALLS = 'agents write postMessage(value, "name") and await message("name")';
const NOT_TAKEN = {
  Proxy: "a plan's objects do what they are told: a Proxy would decide by code", Date: "a plan has no clock",
  RegExp: "it knows no regular expressions", eval: "the script must be there as a whole", BigInt: "it knows no BigInt", Intl: "it knows no Intl",
  ArrayBuffer: "a plan's blocks are shared; write SharedArrayBuffer", DataView: "a block is a row of words; write Uint32Array",
  arguments: "write (...all) => ..", globalThis: "write the name alone", performance: "a plan has no clock",
  structuredClone: "postMessage sends what can be sent", fetch: "a plan opens no connection",
  require: "a script is one file", process: "a script is no program of node", window: "a script has no page",
  document: "a script has no page", Worker: 'write agent("name", async () => {..})',
  ...Object.fromEntries(["self", "onmessage", "addEventListener", "parentPort", "MessageChannel", "BroadcastChannel"].map((name) => [name, BY_CALLS])),
};

/** A page that is not isolated has no name for SharedArrayBuffer. The memory of WebAssembly leads to it. */
const SharedBuffer = new WebAssembly.Memory({ initial: 0, maximum: 0, shared: true }).buffer.constructor;

/** What of the language that runs this interpreter is what each prototype stands for. */
const REAL = {
  object: Object, function: Function, array: Array, string: String, number: Number, boolean: Boolean, symbol: Symbol, map: Map, set: Set,
  weakref: WeakRef, weakmap: WeakMap, weakset: WeakSet, registry: FinalizationRegistry, promise: Promise, buffer: SharedBuffer,
  view: Object.getPrototypeOf(Uint32Array), Error,
};

/** The property of a method, whose function is made when it is first asked for. */
class Method {
  isEnumerable = false;
  #made = null;

  constructor(realm, name, act) {
    Object.assign(this, { realm, name, act });
  }

  get value() {
    return (this.#made ??= this.realm.native(this.name, this.act));
  }

  set value(value) {
    this.#made = value;
  }
}

const foreign = (node, name, instead) => (
  new ScriptFault(`${name || "this function"} belongs to another agent: agents share blocks alone; ${instead}`, node));

export class Realm {
  protos = {};
  #globals = new Map();

  constructor(agent) {
    this.agent = agent;
    for (const kind of KINDS) this.protos[kind] = Object.assign(new Thing("object"), { isBuiltIn: true });
    for (const kind of KINDS) if (kind !== "object") this.protos[kind].proto = this.protos.object;
    for (const name of ["Uint32Array", "Int32Array"]) this.protos[name].proto = this.protos.view;
    for (const [kind, real] of Object.entries(REAL)) this.protos[kind].real = real.prototype;
    this.invoke = invoke;
    Object.assign(this, { begin, callSuper, instance });
  }

  // For the files of built-ins

  /** A function of the language: a generator of the context, the place, `this` and the values. */
  native(name, act, { length = act.length, isConstructor = false, holds } = {}) {
    const made = new Thing("function", this.protos.function);
    Object.assign(made, { native: act, isConstructor, isBuiltIn: holds === undefined });
    made.properties.set("name", { value: name, isEnumerable: false });
    made.properties.set("length", { value: length, isEnumerable: false });
    if (holds !== undefined) {
      made.withheld = new Map([["promise", holds]]);
      holds.holders.add(made);
    }
    return made;
  }

  /** Adds methods to a thing. */
  methods(thing, methods) {
    for (const [name, act] of Object.entries(methods)) thing.properties.set(name, new Method(this, name, act));
  }

  getter(thing, name, act) {
    thing.properties.set(name, { get: this.native(name, act), isEnumerable: false });
  }

  constant(thing, name, value) {
    thing.properties.set(name, { value, isEnumerable: false });
  }

  global(cx, node, name) {
    return this.#globals.has(name) ? this.#globals.get(name) : this.unknown(cx, node, name);
  }

  /** A name that the script has not, and the language either; or the interpreter alone. */
  unknown(cx, node, name) {
    if (Object.hasOwn(NOT_TAKEN, name)) throw new ScriptFault(`${name} is not taken: ${NOT_TAKEN[name]}`, node);
    return raise(cx, node, "ReferenceError", `${name} is not defined`);
  }

  hasGlobal(name) {
    return this.#globals.has(name);
  }

  define(name, value) {
    this.#globals.set(name, value);
    if (value instanceof Thing) value.real = globalThis[name];
    return value;
  }

  /** That a property that is not there is not one which the language has, and this interpreter has not. */
  checkKnown(node, target, key) {
    for (let owner = target; owner; owner = owner.proto) {
      if (typeof key !== "string" || !owner.real || !Object.hasOwn(owner.real, key)) continue;
      throw new ScriptFault(`${key} is not taken: the language has it, and the interpreter does not know it`, node);
    }
  }

  /** A constructor with its prototype. */
  constructorOf(name, proto, act, { parent } = {}) {
    const made = this.native(name, act, { isConstructor: true });
    this.constant(made, "prototype", proto);
    this.constant(proto, "constructor", made);
    if (parent) made.proto = parent;
    return this.define(name, made);
  }

  /** An object that is the language's own, as Math is. */
  plainObject() {
    return Object.assign(new Thing("object", this.protos.object), { isBuiltIn: true });
  }

  /** What a value's iteration is: one of its methods. */
  iterates(proto, method) {
    proto.properties.set(KNOWN.iterator, proto.properties.get(method));
  }

  hasIterator(thing) {
    for (let owner = thing; owner !== null; owner = owner.proto) if (owner.properties.has(KNOWN.iterator)) return true;
    return false;
  }

  /** An iterator over a thing, which it holds: `step` gives the next value in an object, or undefined at the end. */
  iterator(cx, node, source, step) {
    const made = Object.assign(new Thing("iterator", this.protos.iterator), { step });
    if (source instanceof Thing) cx.writer.hold(node, made, "source", source, cx.temporaries);
    return made;
  }

  /** What `next` of an iterator answers. */
  stepResult(cx, node, value, done) {
    const made = new Thing("object", this.protos.object);
    made.properties.set("value", { value, isEnumerable: true });
    made.properties.set("done", { value: done, isEnumerable: true });
    cx.writer.hold(node, made, cx.writer.key(made, "value"), value, cx.temporaries);
    return made;
  }

  tagged(proto, tag) {
    proto.properties.set(KNOWN.toStringTag, { value: tag, isEnumerable: false });
  }

  // For the interpreter

  /** An error of the language. It is no object of the plan before one needs it there. */
  error(name, message) {
    const made = new Thing("error", this.protos[name] ?? this.protos.Error);
    made.properties.set("message", { value: message, isEnumerable: false });
    made.properties.set("stack", { value: `${name}: ${message}`, isEnumerable: false });
    return made;
  }

  newObject(cx, node) {
    return cx.make(node, new Thing("object", this.protos.object));
  }

  array() {
    return Object.assign(new Thing("array", this.protos.array), { items: [] });
  }

  protoOf(value) {
    return value instanceof Sym ? this.protos.symbol : this.protos[typeof value];
  }

  thisOf(cx, node) {
    if (cx.self.isMissing) {
      raise(cx, node, "ReferenceError", "Must call super constructor in derived class before accessing 'this' or returning from derived constructor");
    }
    cx.writer.uses.read(cx.self);
    return cx.self.value;
  }

  /** Agents share blocks alone. What a script has outside of its agents they may read where it is no object of a plan, and has not
      changed since the agent began. */
  checkForeign(cx, node, { value, name, kind, isMutable, since, scope }, isAssigned) {
    const isCode = value?.kind === "function" && cx.agent.world.common.use(value, scope.agent);
    const hasChanged = isMutable && kind !== "function" && kind !== "class" && since > cx.agent.begun;
    if (isAssigned || hasChanged || (hasIdentity(value) && !isCode)) {
      const isSent = !isThing(value) || planned(value).kind === "buffer";
      throw foreign(node, name, isSent ? "send it with postMessage" : "make it within the agent");
    }
  }

  /** What an agent writes to a function or a class, another one must not see. */
  checkOwn(cx, node, thing) {
    if (thing.scope && thing.scope.agent !== cx.agent) throw foreign(node, thing.properties.get("name")?.value, "make it within the agent");
  }

  checkPrivate(cx, node, thing, key) {
    if (!(thing instanceof Thing) || findProperty(thing, key) === null) {
      raise(cx, node, "TypeError", `Cannot read private member #${key.name} from an object whose class did not declare it`);
    }
  }
}
