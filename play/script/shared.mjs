// SharedArrayBuffer and Atomics. In a plan a view is its buffer, and an index and a number are literals: the script knows them when
// it gets there. So it does of a sleep how it ended: the other agents have had their turns by then.

import { needing, raise } from "./core.mjs";
import { ASLEEP } from "./coroutines.mjs";
import { ScriptFault } from "./faults.mjs";
import { newInstance } from "./functions.mjs";
import { toNumber } from "./operators.mjs";
import { isThing, planned } from "./values.mjs";

const MOST_WORDS = 16384;
const MOST_BLOCKS = 256;

function newBuffer(cx, node, bytes, newTarget) {
  const words = Number(bytes) / 4;
  if (!Number.isInteger(words)) {
    throw new ScriptFault("a block is a row of words of 4 bytes: give a number of bytes that 4 divides", node);
  }
  if (words < 0 || words > MOST_WORDS) {
    throw new ScriptFault("a block of a plan has 16,384 words at most, which are 65,536 bytes", node);
  }
  if ((cx.agent.opened = (cx.agent.opened ?? 0) + 1) > MOST_BLOCKS) {
    throw new ScriptFault("an agent of a plan opens 256 blocks at most", node);
  }
  const made = Object.assign(newInstance(cx, node, newTarget, "buffer"), { block: { words: new Uint32Array(words) } });
  cx.make(node, made, ["buffer", words]);
  return made;
}

/** The number of a command that is refused before an object is asked for its number: so 0 stands in its place. */
const unasked = (value) => (typeof value === "object" ? 0 : wordOf(value));

/** The index that a call of Atomics is given, in a view. Where it is refused, so is a command of the plan: of this word, with these
    numbers. */
function* indexIn(cx, node, view, given, [command, ...numbers] = ["load"]) {
  if (view?.kind !== "view") raise(cx, node, "TypeError", "[object Object] is not an integer typed array.");
  const [index] = yield* wholesOf(cx, node, view, [given]);
  if (index >= 0 && index < view.count) return index;
  const word = view.from + index;
  if (Number.isSafeInteger(word) && !(word in view.stands.block.words)) {
    const assigned = command === "store" ? [] : [cx.writer.temporary(cx.temporaries)];
    cx.refuse(node, [command, ...assigned, cx.operand(node, view), word, ...numbers], "RangeError: index");
  }
  return raise(cx, node, "RangeError", "Invalid atomic access index");
}

/** A value as a whole number, or infinite. */
export const wholeOf = (value) => Math.trunc(Number(value)) || 0;

/** A value as a number. What an object's method does meanwhile may let go of the view. */
function* numberOf(cx, node, view, value) {
  const convert = () => toNumber(cx, node, value);
  return yield* isThing(value) ? needing(cx, view, convert) : convert();
}

/** Values as whole numbers, from left to right. */
function* wholesOf(cx, node, view, values) {
  const found = [];
  for (const value of values) found.push(wholeOf(yield* numberOf(cx, node, view, value)));
  return found;
}

/** A number of a command, as a plan has it: modulo 2^32 where a plan has no such number. */
export function wordOf(value) {
  const whole = wholeOf(value);
  return Number.isSafeInteger(whole) ? whole : whole >>> 0;
}

/** The methods that change a word, each with its command. A plan of version 1 can subtract too: it adds the negative number. */
const CHANGING = { add: "add", sub: "add", and: "and", or: "or", xor: "xor", exchange: "exchange", compareExchange: "compareexchange" };

const changing = (name, word) => function* (cx, node, self, [view, index, first, second]) {
  const values = word === "compareexchange" ? [first, second] : [first];
  const sign = name === "sub" ? -1 : 1;
  if (word !== "add") cx.agent.world.needVersion(3);
  const at = yield* indexIn(cx, node, view, index, [word, ...values.map((value) => sign * unasked(value))]);
  const numbers = (yield* wholesOf(cx, node, view, values)).map((whole) => sign * wordOf(whole));
  return view.reads(cx.ask(node, [word, cx.operand(node, view), view.from + at, ...numbers]));
};

/** Where a call waits or wakes: a word of an Int32Array. */
function* placeOf(cx, node, view, index, command) {
  const { realm, world } = cx.agent;
  if (view?.kind !== "view" || !realm.isSigned(view)) raise(cx, node, "TypeError", `${titleOf(view)} is not an int32 or BigInt64 typed array.`);
  world.needVersion(3);
  return view.from + (yield* indexIn(cx, node, view, index, command));
}

/** What V8 calls what is no view of signed words. */
function titleOf(value) {
  if (!isThing(value)) return String(value);
  if (value.kind === "view") return "[object Uint32Array]";
  return value.kind === "array" ? "[object Array]" : "#<Object>";
}

/** Sleeps where a word is there, and gives how that ended. A sleep has turns for its time, and no milliseconds. */
function* wait(cx, node, self, [view, index, value, timeout]) {
  const place = yield* placeOf(cx, node, view, index, ["wait", unasked(value)]);
  const [whole] = yield* wholesOf(cx, node, view, [value]);
  const time = yield* numberOf(cx, node, view, timeout), number = wordOf(whole), { block } = view.stands;
  const words = ["wait", cx.operand(node, view), place, number];
  if (block.words[place] !== number >>> 0) return cx.ask(node, words, "not-equal");
  if (time <= 0) throw new ScriptFault("a plan's wait lasts until no other agent goes on: give it a time above 0, or none", node);
  const { agent } = cx;
  agent.world.sleep(agent, block, place);
  yield ASLEEP;
  const { answer } = agent.sleep;
  agent.sleep = null;
  return cx.ask(node, words, answer);
}

/** Wakes agents that sleep at a word: all, where it is not said how many at most. */
function* notify(cx, node, self, [view, index, count]) {
  const place = yield* placeOf(cx, node, view, index, ["notify"]);
  const [whole] = count === undefined ? [Infinity] : yield* wholesOf(cx, node, view, [count]);
  const most = Math.max(whole, 0), counts = Number.isSafeInteger(most) ? [most] : [];
  const words = ["notify", cx.operand(node, view), place, ...counts];
  return cx.ask(node, words, cx.agent.world.notify(view.stands.block, place, most));
}

const atomics = (realm) => ({
  *load(cx, node, self, [view, index]) {
    return realm.load(cx, node, view, yield* indexIn(cx, node, view, index));
  },
  *store(cx, node, self, [view, index, value]) {
    const at = yield* indexIn(cx, node, view, index, ["store", unasked(value)]);
    const [whole] = yield* wholesOf(cx, node, view, [value]);
    return realm.store(cx, node, view, at, whole);
  },
  ...Object.fromEntries(Object.entries(CHANGING).map(([name, word]) => [name, changing(name, word)])),
  wait,
  notify,
});

/** Whether two shared buffers, or views of these, are over the same block: ours, since JavaScript can't ask. */
function* sameBlock(cx, node, self, [one, other]) {
  const both = [one, other];
  if (both.some((value) => planned(value)?.kind !== "buffer")) {
    const operands = both.map((value) => cx.operand(node, value));
    cx.refuse(node, ["sameblock", cx.writer.temporary(cx.temporaries), ...operands], "TypeError: not a SharedArrayBuffer");
    raise(cx, node, "TypeError", "sameBlock takes two of SharedArrayBuffer");
  }
  return cx.ask(node, ["sameblock", ...both.map((value) => cx.operand(node, value))]);
}

const MISSING = ["waitAsync", "isLockFree"];

export function installShared(realm) {
  realm.constructorOf("SharedArrayBuffer", realm.protos.buffer, function* (cx, node, self, [bytes], newTarget) {
    if (newTarget === undefined) raise(cx, node, "TypeError", "Constructor SharedArrayBuffer requires 'new'");
    return newBuffer(cx, node, bytes, newTarget);
  });
  realm.getter(realm.protos.buffer, "byteLength", function* (cx, node, self) {
    if (self?.kind !== "buffer") raise(cx, node, "TypeError", "Method SharedArrayBuffer.prototype.byteLength called on incompatible receiver");
    return 4 * cx.ask(node, ["length", cx.operand(node, self)]);
  });
  realm.tagged(realm.protos.buffer, "SharedArrayBuffer");
  realm.define("sameBlock", realm.native("sameBlock", sameBlock, { length: 2 }));
  const object = realm.define("Atomics", realm.plainObject());
  realm.methods(object, atomics(realm));
  for (const name of MISSING) {
    realm.constant(object, name, realm.native(name, function* (cx, node) {
      throw new ScriptFault(`Atomics.${name} is not taken: plans load, store and change words, and sleep at them`, node);
    }));
  }
}
