// Operators on values that have no identity, and conversions to them.

import { call, raise } from "./core.mjs";
import { getProperty } from "./properties.mjs";
import { KNOWN, Sym, isCallable, isThing, typeOf } from "./values.mjs";

/** ToPrimitive. */
function* toPrimitive(cx, node, value, hint = "default") {
  if (!isThing(value)) return value;
  const exotic = yield* getProperty(cx, node, value, KNOWN.toPrimitive);
  if (exotic !== undefined) return yield* call(cx, node, exotic, value, [hint]);
  for (const name of hint === "string" ? ["toString", "valueOf"] : ["valueOf", "toString"]) {
    const method = yield* getProperty(cx, node, value, name);
    if (!isCallable(method)) continue;
    const found = yield* call(cx, node, method, value, []);
    if (!isThing(found)) return found;
  }
  return raise(cx, node, "TypeError", "Cannot convert object to primitive value");
}

export function* toText(cx, node, value) {
  const plain = yield* toPrimitive(cx, node, value, "string");
  if (plain instanceof Sym) raise(cx, node, "TypeError", "Cannot convert a Symbol value to a string");
  return String(plain);
}

export function* toNumber(cx, node, value) {
  const plain = yield* toPrimitive(cx, node, value, "number");
  if (plain instanceof Sym) raise(cx, node, "TypeError", "Cannot convert a Symbol value to a number");
  return Number(plain);
}

const ARITHMETIC = {
  "-": (a, b) => a - b, "*": (a, b) => a * b, "/": (a, b) => a / b, "%": (a, b) => a % b, "**": (a, b) => a ** b,
  "&": (a, b) => a & b, "|": (a, b) => a | b, "^": (a, b) => a ^ b, "<<": (a, b) => a << b, ">>": (a, b) => a >> b, ">>>": (a, b) => a >>> b,
};
const COMPARISONS = { "<": (a, b) => a < b, ">": (a, b) => a > b, "<=": (a, b) => a <= b, ">=": (a, b) => a >= b };

/** The value of a binary operator, but for `in` and `instanceof`. */
export function* binary(cx, node, operator, left, right) {
  if (operator === "===") return same(cx, node, left, right);
  if (operator === "!==") return left !== right;
  if (operator === "==" || operator === "!=") return (yield* looselyEqual(cx, node, left, right)) === (operator === "==");
  if (operator === "+") return yield* plus(cx, node, left, right);
  if (COMPARISONS[operator]) {
    const [a, b] = [yield* toPrimitive(cx, node, left, "number"), yield* toPrimitive(cx, node, right, "number")];
    return COMPARISONS[operator](a, b);
  }
  return ARITHMETIC[operator](yield* toNumber(cx, node, left), yield* toNumber(cx, node, right));
}

/** Of objects and symbols the plan is asked. */
function same(cx, node, left, right) {
  if (!isThing(left) || !isThing(right) || left.number === 0 || right.number === 0) return left === right;
  return cx.ask(node, ["same", cx.operand(node, left), cx.operand(node, right)]);
}

function* plus(cx, node, left, right) {
  const [a, b] = [yield* toPrimitive(cx, node, left), yield* toPrimitive(cx, node, right)];
  if (typeof a === "string" || typeof b === "string") return (yield* toText(cx, node, a)) + (yield* toText(cx, node, b));
  return (yield* toNumber(cx, node, a)) + (yield* toNumber(cx, node, b));
}

function* looselyEqual(cx, node, left, right) {
  if (isThing(left) === isThing(right)) {
    return isThing(left) || left instanceof Sym || right instanceof Sym ? left === right : left == right;
  }
  if (left === undefined || left === null || right === undefined || right === null) return false;
  const [a, b] = [yield* toPrimitive(cx, node, left), yield* toPrimitive(cx, node, right)];
  return a instanceof Sym || b instanceof Sym ? a === b : a == b;
}

/** `instanceof`. */
export function* instanceOf(cx, node, value, constructor) {
  if (!isThing(constructor)) raise(cx, node, "TypeError", "Right-hand side of 'instanceof' is not callable");
  const own = yield* getProperty(cx, node, constructor, KNOWN.hasInstance);
  if (own !== undefined) return Boolean(yield* call(cx, node, own, constructor, [value]));
  if (!isCallable(constructor)) raise(cx, node, "TypeError", "Right-hand side of 'instanceof' is not callable");
  constructor.complete?.("prototype");
  const prototype = constructor.properties.get("prototype")?.value;
  for (let owner = isThing(value) ? value.proto : null; owner !== null; owner = owner.proto) {
    if (owner === prototype) return true;
  }
  return false;
}

export function* unary(cx, node, operator, value) {
  switch (operator) {
    case "!": return !value;
    case "-": return -(yield* toNumber(cx, node, value));
    case "+": return yield* toNumber(cx, node, value);
    case "~": return ~(yield* toNumber(cx, node, value));
    case "typeof": return typeOf(value);
    default: return undefined;
  }
}
