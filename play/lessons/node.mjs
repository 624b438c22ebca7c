// What a script of these lessons finds in clusterrun, for node: node --expose-gc --import ./node.mjs LESSON.js
//
// node has one thread for all agents here: they take turns at `await`. A callback of a FinalizationRegistry comes when node likes.

import { AsyncLocalStorage } from "node:async_hooks";
import { setTimeout as waits } from "node:timers/promises";

const current = new AsyncLocalStorage();
const ports = new Map();

/** What waits between two agents, in one direction: messages, or those who wait for one. */
function port(sender, receiver) {
  const name = `${sender} ${receiver}`;
  if (!ports.has(name)) ports.set(name, { messages: [], waiting: [] });
  return ports.get(name);
}

/** What stands for the block of a shared buffer, by each buffer that is over it: JavaScript can't ask. */
const blocks = new WeakMap();
const blockOf = (buffer) => blocks.get(buffer) ?? blocks.set(buffer, {}).get(buffer);

const bufferOf = (value) => (ArrayBuffer.isView(value) ? value.buffer : value);
const isShared = (value) => value instanceof SharedArrayBuffer;

const self = () => current.getStore() ?? "main";

/** The most milliseconds of a sleep: in one thread nobody can wake who sleeps. */
const BRIEF = 1;
const { wait } = Atomics;
const briefly = (time) => ({
  valueOf() {
    const given = Number(time);
    return given <= BRIEF ? given : BRIEF;
  },
});
Atomics.wait = (words, index, value, time) => wait(words, index, value, briefly(time));

/** One value as clusterrun shows it, but for the numbers of objects. */
function shown(value, isInner = false) {
  if (typeof value === "string") return isInner ? `'${value}'` : value;
  if (typeof value === "function") return `[${/^class\b/.test(Function.prototype.toString.call(value)) ? "class" : "Function"}: ${value.name || "(anonymous)"}]`;
  if (typeof value !== "object" || value === null) return Object.is(value, -0) ? "-0" : String(value);
  if (value instanceof Error) return `[${value.name}: ${value.message}]`;
  if (Array.isArray(value)) return isInner ? "[Array]" : bracketed("[", Array.from(value, (one) => shown(one, true)), "]");
  if (value instanceof Map) return isInner ? "[Map]" : `Map(${value.size}) ${bracketed("{", [...value].map((pair) => pair.map((one) => shown(one, true)).join(" => ")), "}")}`;
  if (value instanceof Set) return isInner ? "[Set]" : `Set(${value.size}) ${bracketed("{", [...value].map((one) => shown(one, true)), "}")}`;
  return "object";
}

const bracketed = (left, inner, right) => (inner.length === 0 ? `${left}${right}` : `${left} ${inner.join(", ")} ${right}`);
const write = (...values) => process.stdout.write(`${values.map((value) => shown(value)).join(" ")}\n`);

Object.assign(console, { log: write, info: write, debug: write, warn: write, error: write });
Object.assign(globalThis, {
  turn: () => waits(5),
  collectLater: () => setTimeout(gc, 0),
  sameBlock(one, other) {
    const both = [one, other].map(bufferOf);
    if (!both.every(isShared)) throw new TypeError("sameBlock takes two of SharedArrayBuffer");
    return blockOf(both[0]) === blockOf(both[1]);
  },
  agent(name, body) {
    setTimeout(() => {
      const ended = current.run(name, () => body());
      // What a body throws is no promise's, as in a worker.
      if (ended instanceof Promise) ended.catch((error) => queueMicrotask(() => { throw error; }));
    }, 0);
  },
  postMessage(value, receiver) {
    const { messages, waiting } = port(self(), receiver);
    const sent = bufferOf(value);
    const message = structuredClone(sent);
    if (isShared(sent)) blocks.set(message, blockOf(sent));
    if (waiting.length > 0) waiting.shift()(message);
    else messages.push(message);
  },
  message(sender) {
    const { messages, waiting } = port(sender, self());
    if (messages.length > 0) return waits(0, messages.shift());
    return new Promise((go) => waiting.push(go));
  },
});
