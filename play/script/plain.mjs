// Texts, numbers, Math, JSON and errors: what is computed, and is no object of the plan.

import { call, raise } from "./core.mjs";
import { ScriptFault } from "./faults.mjs";
import { link, newInstance } from "./functions.mjs";
import { iterate } from "./iteration.mjs";
import { toNumber, toText } from "./operators.mjs";
import { define, enumerableKeys, getProperty, newArray } from "./properties.mjs";
import { Sym, isCallable, isThing } from "./values.mjs";

const TEXT_METHODS = [
  "at", "charAt", "charCodeAt", "codePointAt", "concat", "endsWith", "includes", "indexOf", "lastIndexOf", "padEnd", "padStart", "repeat", "slice",
  "startsWith", "substring", "toLowerCase", "toUpperCase", "trim", "trimEnd", "trimStart", "localeCompare",
];
const NUMBER_METHODS = ["toFixed", "toString", "toPrecision"];
const MATH = [
  "abs", "ceil", "cbrt", "floor", "hypot", "log", "log10", "log2", "max", "min", "pow", "round", "sign", "sqrt", "trunc", "imul", "clz32",
];

/** A method that the language has for values without identity, called on one. */
const borrowed = (proto, name) => function* (cx, node, self, values) {
  if (values.some(isThing)) throw new ScriptFault(`${name} is taken with texts and numbers alone`, node);
  try {
    return proto[name].apply(self, values);
  } catch (error) {
    return raise(cx, node, error.name, error.message);
  }
};

const borrow = (realm, goal, proto, names) => realm.methods(goal, Object.fromEntries(names.map((name) => [name, borrowed(proto, name)])));

function installTexts(realm) {
  const proto = realm.protos.string;
  const text = realm.constructorOf("String", proto, function* (cx, node, self, values) {
    const [value] = values;
    if (value instanceof Sym) return `Symbol(${value.description ?? ""})`;
    return values.length === 0 ? "" : yield* toText(cx, node, value);
  });
  borrow(realm, text, String, ["fromCharCode"]);
  borrow(realm, proto, String.prototype, TEXT_METHODS);
  realm.methods(proto, {
    *toString(cx, node, self) { return self; },
    *valueOf(cx, node, self) { return self; },
    *split(cx, node, self, [between, most]) { return newArray(cx, node, self.split(between, most)); },
    *replace(cx, node, self, [what, by]) { return self.replace(what, () => String(by)); },
    *replaceAll(cx, node, self, [what, by]) { return self.replaceAll(what, () => String(by)); },
    *letters(cx, node, self) {
      const letters = [...self].values();
      return realm.iterator(cx, node, null, () => {
        const { done, value } = letters.next();
        return done ? undefined : { value };
      });
    },
  });
  realm.iterates(proto, "letters");
}

function installNumbers(realm) {
  const number = realm.constructorOf("Number", realm.protos.number, function* (cx, node, self, values) {
    return values.length === 0 ? 0 : yield* toNumber(cx, node, values[0]);
  });
  borrow(realm, number, Number, ["isInteger", "isFinite", "isNaN", "isSafeInteger", "parseFloat", "parseInt"]);
  for (const name of ["MAX_SAFE_INTEGER", "MIN_SAFE_INTEGER", "EPSILON", "MAX_VALUE", "MIN_VALUE"]) {
    realm.constant(number, name, Number[name]);
  }
  borrow(realm, realm.protos.number, Number.prototype, NUMBER_METHODS);
  realm.methods(realm.protos.number, { *valueOf(cx, node, self) { return self; } });
  realm.constructorOf("Boolean", realm.protos.boolean, function* (cx, node, self, [value]) { return Boolean(value); });
  borrow(realm, realm.protos.boolean, Boolean.prototype, ["toString", "valueOf"]);
  for (const name of ["parseInt", "parseFloat", "isNaN", "isFinite"]) {
    realm.define(name, realm.native(name, borrowed(globalThis, name)));
  }
}

function installMath(realm) {
  const math = realm.define("Math", realm.plainObject());
  borrow(realm, math, Math, MATH);
  for (const name of ["PI", "E", "LN2", "LN10", "SQRT2"]) realm.constant(math, name, Math[name]);
  realm.methods(math, {
    *random(cx, node) { throw new ScriptFault("Math.random is not taken: a plan does the same each time", node); },
  });
}

// JSON

/** A value as JSON would have it, in the values of JavaScript. */
function* plainOf(cx, node, value, within = []) {
  if (!isThing(value)) return value instanceof Sym ? undefined : value;
  if (within.includes(value)) raise(cx, node, "TypeError", "Converting circular structure to JSON");
  const own = yield* getProperty(cx, node, value, "toJSON");
  if (isCallable(own)) return yield* plainOf(cx, node, yield* call(cx, node, own, value, []), within);
  if (isCallable(value)) return undefined;
  const inner = [...within, value];
  if (value.items) {
    const items = [];
    for (const index of value.items.keys()) {
      items.push(yield* plainOf(cx, node, yield* getProperty(cx, node, value, String(index)), inner));
    }
    return items;
  }
  const made = {};
  for (const key of enumerableKeys(value)) {
    made[key] = yield* plainOf(cx, node, yield* getProperty(cx, node, value, key), inner);
  }
  return made;
}

/** A value of JSON as one of the script. */
function scriptOf(cx, node, value) {
  if (typeof value !== "object" || value === null) return value;
  if (Array.isArray(value)) return newArray(cx, node, value.map((one) => scriptOf(cx, node, one)));
  const made = cx.agent.realm.newObject(cx, node);
  for (const [key, one] of Object.entries(value)) define(cx, node, made, key, scriptOf(cx, node, one));
  return made;
}

function installJson(realm) {
  realm.methods(realm.define("JSON", realm.plainObject()), {
    *stringify(cx, node, self, [value, replacer, space]) {
      if (replacer !== undefined && replacer !== null) {
        throw new ScriptFault("JSON.stringify with a second operand is not taken", node);
      }
      return JSON.stringify(yield* plainOf(cx, node, value), null, space);
    },
    *parse(cx, node, self, [text]) {
      try {
        return scriptOf(cx, node, JSON.parse(text));
      } catch (error) {
        if (!(error instanceof SyntaxError)) throw error;
        return raise(cx, node, "SyntaxError", error.message);
      }
    },
  });
}

// Errors

const ERRORS = ["EvalError", "RangeError", "ReferenceError", "SyntaxError", "TypeError", "URIError", "DataCloneError"];

const makeError = (name) => function* (cx, node, self, [message, options], newTarget) {
  const made = newTarget === undefined ? cx.agent.realm.error(name, "") : newInstance(cx, node, newTarget, "error");
  made.properties.delete("message");
  if (message !== undefined) made.properties.set("message", { value: yield* toText(cx, node, message), isEnumerable: false });
  made.properties.set("stack", { value: name, isEnumerable: false });
  if (isThing(options)) {
    const cause = yield* getProperty(cx, node, options, "cause");
    made.properties.set("cause", { value: cause, isEnumerable: false });
    cx.writer.hold(node, made, cx.writer.key(made, "cause"), cause, cx.temporaries);
  }
  if (!made.proto.isBuiltIn) link(cx, node, made, "prototype", made.proto);
  return made;
};

function installErrors(realm) {
  const proto = realm.protos.Error;
  const parent = realm.constructorOf("Error", proto, makeError("Error"));
  realm.methods(proto, {
    *toString(cx, node, self) {
      const [name, message] = [yield* getProperty(cx, node, self, "name"), yield* getProperty(cx, node, self, "message")];
      return message === "" ? name : `${name}: ${message}`;
    },
  });
  for (const name of ["Error", ...ERRORS]) {
    if (name !== "Error") {
      realm.protos[name] = Object.assign(realm.plainObject(), { proto });
      if (name !== "DataCloneError") realm.constructorOf(name, realm.protos[name], makeError(name), { parent });
    }
    realm.constant(realm.protos[name], "name", name);
    realm.constant(realm.protos[name], "message", "");
  }
  installAggregate(realm, parent);
}

function installAggregate(realm, parent) {
  const proto = (realm.protos.AggregateError = Object.assign(realm.plainObject(), { proto: realm.protos.Error }));
  realm.constant(proto, "name", "AggregateError");
  realm.constructorOf("AggregateError", proto, function* (cx, node, self, [errors, message]) {
    const made = realm.error("AggregateError", message ?? "");
    const values = [];
    yield* iterate(cx, node, errors, function* (value) { values.push(value); });
    define(cx, node, made, "errors", newArray(cx, node, values), { isEnumerable: false });
    return made;
  }, { parent });
}

export function installPlain(realm) {
  for (const install of [installTexts, installNumbers, installMath, installJson, installErrors]) install(realm);
}
