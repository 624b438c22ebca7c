// What the host gives: console, timers, turns, agents and their messages.

import { raise } from "./core.mjs";
import { Held } from "./bindings.mjs";
import { ownFunction } from "./common.mjs";
import { runWhole } from "./coroutines.mjs";
import { ScriptFault } from "./faults.mjs";
import { IMMEDIATE, TIMERS } from "./order.mjs";
import { newPromise, resolve } from "./promises.mjs";
import { nameOfError, sayValues, shown } from "./saying.mjs";
import { Sym, Thing, hasIdentity, isCallable, isThing } from "./values.mjs";

const MOST_ROUNDS = 100;
const MOST_POSTS = 10000;
/** A turn is a timer of so many milliseconds, as in play/lessons/node.mjs. */
const TURN = 5;

function installConsole(realm) {
  const console = realm.define("console", new Thing("object", realm.protos.object));
  const log = function* (cx, node, self, values) { sayValues(cx, node, values); };
  realm.methods(console, { log, info: log, debug: log, warn: log, error: log });
  realm.sayText = (cx, node, text) => sayValues(cx, node, [text]);
  realm.textOfError = (value) => {
    if (value?.kind !== "error") return shown(value);
    return `${nameOfError(value)}: ${value.properties.get("message")?.value ?? ""}`;
  };
}

/** A timer: its function, and what that gets, are held until it was called, or the timer is cleared. */
class Timer {
  rounds = 0;
  #isUsed = false;
  #held;

  constructor({ writer, temporaries }, node, values) {
    this.#held = values.map((value) => new Held(node, writer, "timer", value, temporaries));
  }

  /** The one call begins: after that the timer needs nothing. */
  use(writer) {
    this.#isUsed = true;
    for (const held of this.#held) held.use(writer);
  }

  end(node, writer) {
    for (const held of this.#held) {
      if (this.#isUsed) held.drop(node, writer);
      else held.end(node, writer);
    }
  }
}

function installTimers(realm) {
  const timers = new Map();
  let last = 0;
  const set = ({ isRepeated = false, queue = TIMERS }) => function* (cx, node, self, [callback, delay, ...values]) {
    if (!isCallable(callback)) raise(cx, node, "TypeError", 'The "callback" argument must be of type function.');
    const id = (last += 1);
    const timer = new Timer(cx, node, [callback, ...values]);
    timers.set(id, timer);
    const wait = Math.max(0, Math.trunc(Number(delay)) || 0);
    const setFor = (agent, more) => {
      timer.task = agent.schedule(node, Math.max(1, wait), go, { queue, wait, callee: callback, ...more });
    };
    const go = function* (inner) {
      timer.rounds += 1;
      if (timer.rounds > MOST_ROUNDS) {
        throw new ScriptFault("this interval is called more than 100 times: a plan has an end; clearInterval ends it", node);
      }
      if (!isRepeated) timer.use(inner.writer);
      try {
        yield* realm.invoke(inner, node, callback, undefined, values);
      } finally {
        if (!isRepeated) clear(inner, node, id);
        else if (timers.has(id)) setFor(inner.agent, { isAgain: true });
      }
    };
    setFor(cx.agent);
    return id;
  };
  const clear = (cx, node, id) => {
    const timer = timers.get(id);
    if (timer === undefined) return;
    timers.delete(id);
    cx.agent.cancel(timer.task);
    timer.end(node, cx.writer);
  };
  const clearing = function* (cx, node, self, [id]) { clear(cx, node, id); };
  const timing = {
    setTimeout: set({}), setInterval: set({ isRepeated: true }), clearTimeout: clearing, clearInterval: clearing, clearImmediate: clearing,
  };
  for (const [name, act] of Object.entries(timing)) realm.define(name, realm.native(name, act));
  const immediate = set({ queue: IMMEDIATE });
  const now = (cx, node, self, [callback, ...values]) => immediate(cx, node, self, [callback, 0, ...values]);
  realm.define("setImmediate", realm.native("setImmediate", now));
}

function installTurns(realm) {
  realm.define("turn", realm.native("turn", function* (cx, node) {
    const promise = newPromise(cx.agent);
    const held = new Held(node, cx.writer, "turn", promise, cx.temporaries);
    cx.agent.schedule(node, TURN, function* (inner) {
      yield* resolve(inner, node, promise, undefined);
      held.end(node, inner.writer);
    }, { queue: TIMERS, wait: TURN });
    return promise;
  }));
  realm.define("queueMicrotask", realm.native("queueMicrotask", function* (cx, node, self, [callback]) {
    if (!isCallable(callback)) raise(cx, node, "TypeError", 'The "callback" argument must be of type function.');
    cx.agent.enqueue(cx, node, [callback], function* (inner) {
      inner.guards = 0;
      yield* realm.invoke(inner, node, callback, undefined, []);
    });
  }));
}

function nameOfAgent(cx, node, name) {
  if (typeof name !== "string" || cx.agent.world.find(name) === null) {
    throw new ScriptFault(`no agent has this name yet: agent("name", async () => {..}) begins one, before it is spoken to`, node);
  }
  if (name === cx.agent.name) throw new ScriptFault("an agent of a plan has no messages with itself", node);
  return name;
}

function installAgents(realm) {
  realm.define("agent", realm.native("agent", function* (cx, node, self, [name, body]) {
    const { world } = cx.agent;
    const fault = faultOfAgent(cx, name, body);
    if (fault) throw new ScriptFault(fault, node);
    const agent = world.add(name);
    agent.schedule(node, 0, function* (inner) {
      const ended = yield* agent.realm.invoke(inner, node, ownFunction(body), undefined, []);
      if (ended?.kind === "promise") ended.isBody = true;
    });
  }));
  realm.define("postMessage", realm.native("postMessage", function* (cx, node, self, [value, name]) {
    const receiver = nameOfAgent(cx, node, name);
    const message = value?.kind === "view" ? value.stands : value;
    if ((isThing(message) && message.kind !== "buffer") || (message instanceof Sym && !message.registered)) {
      if (hasIdentity(message)) cx.refuse(node, ["post", receiver, cx.operand(node, message)], "DataCloneError: value cannot be posted");
      raise(cx, node, "DataCloneError", `${isThing(value) ? "#<Object>" : shown(value)} could not be cloned.`);
    }
    if ((cx.agent.posted = (cx.agent.posted ?? 0) + 1) > MOST_POSTS) throw new ScriptFault("an agent of a plan posts 10,000 messages at most", node);
    cx.do(node, ["post", receiver, cx.operand(node, message)]);
    cx.agent.world.port(cx.agent.name, receiver).push(message);
  }));
  realm.define("message", realm.native("message", function* (cx, node, self, [name]) {
    const promise = newPromise(cx.agent);
    const held = new Held(node, cx.writer, "message", promise, cx.temporaries);
    const sender = nameOfAgent(cx, node, name);
    cx.agent.schedule(node, 0, null, {
      queue: `messages of ${sender}`, sender,
      received: (inner, value) => {
        runWhole(resolve(inner, node, promise, value));
        held.end(node, inner.writer);
      },
    });
    return promise;
  }));
}

const NAME = /^[A-Za-z_]\w{0,31}$/;

function faultOfAgent(cx, name, body) {
  const { world } = cx.agent;
  if (cx.agent.name !== "main") return "an agent is begun outside of other agents";
  if (typeof name !== "string" || !NAME.test(name)) return "the name of an agent is a text of letters, digits and _";
  if (!isCallable(body) || !body.node) return 'write agent("name", async () => {..})';
  if (world.find(name) !== null) return `two agents are named ${name}`;
  return world.agents.length === 8 ? "a plan has 8 agents at most" : null;
}

export function installHost(realm) {
  for (const install of [installConsole, installTimers, installTurns, installAgents]) install(realm);
  realm.define("undefined", undefined);
  realm.define("NaN", NaN);
  realm.define("Infinity", Infinity);
}
