// console.log: one line of the script. A plan's `say` has one value on a line. So a line is the values of several `say`, one after
// another, and their places say how they are joined.

import { evaluate } from "./core.mjs";
import { listOf } from "./iteration.mjs";
import { toText } from "./operators.mjs";
import { Sym, hasIdentity, isInPlan, isThing, literalOf, planned } from "./values.mjs";

const METHODS = new Set(["log", "info", "debug", "warn", "error"]);

/** Whether a call is one of console's, which is known where it stands. */
export function isSaying({ callee }, cx) {
  return callee.type === "MemberExpression" && !callee.computed && callee.object.type === "Identifier" && callee.object.name === "console" &&
    METHODS.has(callee.property.name) && cx.scope.find("console") === null;
}

/** The parts of a line: each a value, with the plan's variable that has it, or without one, where the text is known. */
class Line {
  #parts = [];

  text(value) {
    this.#parts.push({ name: null, value });
  }

  value(node, cx, value) {
    this.#parts.push({ name: isInPlan(value) ? cx.operand(node, value) : cx.writer.teller(value), value });
  }

  /** Writes a `say` for each variable, and for each text between them. */
  write(node, cx) {
    const parts = this.#merged(cx.writer.machine);
    parts.forEach(({ name, value, text }, place) => {
      const joins = { opens: place === 0, closes: place === parts.length - 1 };
      if (text !== reported(name === null ? text : value)) joins.shown = text;
      cx.do(node, ["say", name ?? cx.operand(node, text)], undefined, { say: joins });
    });
  }

  /** A variable that has another value by now can't be said any more. What is known is one text. */
  #merged(machine) {
    const merged = [];
    for (const { name, value } of this.#parts) {
      const isThere = name !== null && machine.value(name) === planned(value);
      const part = { name: isThere ? name : null, value: planned(value), text: shown(value) };
      const last = merged.at(-1);
      if (part.name === null && last?.name === null) last.text += part.text;
      else if (part.name !== null || part.text !== "") merged.push(part);
    }
    return merged.length > 0 ? merged : [{ name: null, text: "" }];
  }
}

/** A value as the report has it, without the quotes of a text. */
function reported(value) {
  if (value instanceof Sym) return value.registered ? `symbolfor "${value.description}"` : `symbol ${value.number}`;
  return isThing(value) ? `object ${value.number}` : String(literalOf(value) ?? undefined);
}

/** A value as a line shows it: arrays, Maps and Sets with what they have, as node does; other objects by their number in the plan. */
export function shown(value, isInner = false) {
  if (typeof value === "string") return isInner ? `'${value}'` : value;
  if (value instanceof Sym) return `Symbol(${value.description ?? ""})`;
  if (!isThing(value)) return Object.is(value, -0) ? "-0" : String(value);
  if (value.items !== undefined) {
    return isInner ? "[Array]" : bracketed("[", Array.from(value.items, (one) => shown(one, true)), "]");
  }
  if (value.pairs !== undefined) {
    return isInner ? `[${nameOfPairs(value)}]` : `${nameOfPairs(value)}(${value.pairs.size}) ${pairsShown(value)}`;
  }
  if (value.kind === "function") {
    return `[${value.isClass ? "class" : "Function"}: ${value.properties.get("name").value || "(anonymous)"}]`;
  }
  if (value.kind === "error") return `[${nameOfError(value)}: ${value.properties.get("message")?.value ?? ""}]`;
  return isInPlan(value) ? `object ${planned(value).number}` : "object";
}

const nameOfPairs = ({ kind }) => (kind === "map" ? "Map" : "Set");

/** The name of an error, as it or a prototype has it. */
export function nameOfError(value) {
  for (let owner = value; owner !== null; owner = owner.proto) {
    if (owner.properties.has("name")) return owner.properties.get("name").value;
  }
  return "Error";
}

const bracketed = (left, inner, right) => (inner.length === 0 ? `${left}${right}` : `${left} ${inner.join(", ")} ${right}`);

function pairsShown({ kind, pairs }) {
  const inner = [...pairs].map(([key, { value }]) => (kind === "map" ? `${shown(key, true)} => ${shown(value, true)}` : shown(key, true)));
  return bracketed("{", inner, "}");
}

/** console.log where it stands: parts of a template are values of their own. */
export function* say(node, cx) {
  const line = new Line();
  for (const [place, argument] of node.arguments.entries()) {
    if (place > 0) line.text(" ");
    if (argument.type === "TemplateLiteral") yield* sayTemplate(argument, cx, line);
    else if (argument.type === "SpreadElement") sayAll(node, cx, line, yield* listOf(cx, argument, yield* evaluate(argument.argument, cx)));
    else line.value(argument, cx, yield* evaluate(argument, cx));
  }
  line.write(node, cx);
  return undefined;
}

function* sayTemplate(node, cx, line) {
  line.text(node.quasis[0].value.cooked);
  for (const [place, part] of node.expressions.entries()) {
    const value = yield* evaluate(part, cx);
    if (hasIdentity(value)) line.text(yield* toText(cx, part, value));
    else line.value(part, cx, value);
    line.text(node.quasis[place + 1].value.cooked);
  }
}

function sayAll(node, cx, line, values) {
  values.forEach((value, place) => {
    if (place > 0) line.text(" ");
    line.value(node, cx, value);
  });
}

/** console.log as a value, which is called with values. */
export function sayValues(cx, node, values) {
  const line = new Line();
  sayAll(node, cx, line, values);
  line.write(node, cx);
}
