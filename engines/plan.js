// Runs a plan on an engine's own objects, WeakRefs, WeakMaps, WeakSets, FinalizationRegistries and shared blocks. It is
// a plain script, without modules, so that each shell takes it, and it defines one name, `Plans`.
//
// A host is given, with four things: `collect()`, a forced collection; `task()`, a promise that is kept in a job of its
// own, so that what the job before kept alive can go; `wait()`, one that is kept when the engine had time to call
// callbacks; and `write(line)`. It may have `clone(buffer)`, another SharedArrayBuffer over the same block, without which
// no plan with messages is run, and `swallows`, which is true where an error that leaves a callback would end the engine.
//
// What the engine is told beside the plan: a held value goes with the number of its registration where another one of the
// FinalizationRegistry had the same, so that `cleanup` lines can be written, and bare elsewhere; and all
// FinalizationRegistries are held to the end of their agent, since an engine may give up one that nothing holds, and its
// callbacks with it. A refused command throws out of its callback, as in the standard.
//
// What is refused the engine says itself: its own methods are called on whatever the variables hold. Which of the tests
// it was that failed is looked up afterwards, since an engine's errors have words of its own.
globalThis.Plans = (function () {
  "use strict";

  class Refused extends Error {}
  // Each object knows its number itself, so that no table of numbers holds it or changes how it is marked.
  class Thing {
    #number;
    constructor(number) { this.#number = number; }
    static numberOf(thing) { return thing.#number; }
  }
  class Ref extends WeakRef {
    #number;
    constructor(number, target) { super(target); this.#number = number; }
    static numberOf(ref) { return ref.#number; }
  }
  class Entries extends WeakMap {
    #number;
    constructor(number) { super(); this.#number = number; }
    static numberOf(map) { return map.#number; }
  }
  class Members extends WeakSet {
    #number;
    constructor(number) { super(); this.#number = number; }
    static numberOf(set) { return set.#number; }
  }
  const Cells = globalThis.FinalizationRegistry ?? class { register() {} unregister() {} };
  class Registry extends Cells {
    #number;
    constructor(number, callback) { super(callback); this.#number = number; }
    static numberOf(registry) { return registry.#number; }
  }
  function given(value) { return value; }
  // A buffer that another agent made can't be made anew, so each SharedArrayBuffer gets these beside what it has. No
  // engine tells whether two of them are the same memory, so each block has a number.
  const hasBlocks = typeof SharedArrayBuffer === "function";
  class Shared extends given {
    #number;
    #block;
    #words;
    constructor(buffer, number, block) {
      super(buffer);
      this.#number = number;
      this.#block = block;
      this.#words = new Uint32Array(buffer);
    }
    static numberOf(buffer) { return buffer.#number; }
    static blockOf(buffer) { return buffer.#block; }
    static wordsOf(buffer) { return buffer.#words; }
  }
  const kinds = [[Thing, Thing], [Ref, Ref], [Entries, Entries], [Members, Members], [Registry, Registry]];
  if (hasBlocks) kinds.push([SharedArrayBuffer, Shared]);
  const isBuffer = (value) => hasBlocks && value instanceof SharedArrayBuffer;
  // As the engine has them, since an object may have properties of these names.
  const { deref } = WeakRef.prototype;
  const { get: mapGet, set: mapSet, has: mapHas, delete: mapDelete } = WeakMap.prototype;
  const { add: setAdd, has: setHas, delete: setDelete } = WeakSet.prototype;
  const { register, unregister } = Cells.prototype;
  const { hasOwnProperty } = Object.prototype;
  const mostValues = 1000000, mostBlocks = 256, mostPosts = 10000;

  // What an operand is tested for. Each test throws where it fails.
  const heldWeakly = { text: "TypeError: cannot be held weakly", test: (value) => new WeakSet().add(value) };
  const aWeakRef = { text: "TypeError: not a WeakRef", test: (value) => deref.call(value) };
  const aWeakMap = { text: "TypeError: not a WeakMap", test: (value) => mapHas.call(value, value) };
  const aWeakSet = { text: "TypeError: not a WeakSet", test: (value) => setHas.call(value, value) };
  const aRegistry = { text: "TypeError: not a FinalizationRegistry", test: (value) => unregister.call(value, {}) };
  const aBuffer = { text: "TypeError: not a SharedArrayBuffer", test: (value) => Shared.wordsOf(value) };
  const aNumber = { text: "TypeError: cannot be converted to a number", test: (value) => Number(operandOf(value)) };
  // What stands for a value where the engine asks for a number, which it converts itself, in its own order. A plan's objects
  // have no methods, those of the engine have; and a plan's texts that are no whole numbers are refused.
  const bare = Object.create(null), numeral = /^ *(?:[+-]?[0-9]{1,15})? *$/;
  const odd = { valueOf() { throw new Refused("limit: texts"); } };
  function operandOf(value) {
    if (typeof value === "string") return numeral.test(value) ? value : odd;
    return typeof value === "object" ? bare : value;
  }
  // What a command is tested for, in order: the test, and the place of the operand. Of one that `gives`, the answer is told
  // at once, so that a wrong one is seen where it was given.
  const asks = (...tests) => ({ tests, gives: false });
  const gives = (...tests) => ({ tests, gives: true });
  // One on a word of a block, with the place of the buffer: where that is the second, something is given. Behind the buffer
  // stand so many numbers.
  const onWord = (at, count) => ({
    tests: [[aBuffer, at], ...Array.from({ length: count }, (_, after) => [aNumber, at + 1 + after])], gives: at === 2, onWord: true,
  });
  const rules = {
    same: gives(), get: gives(), delete: gives(), weakref: asks([heldWeakly, 2]), deref: asks([aWeakRef, 2]),
    wmset: asks([aWeakMap, 1], [heldWeakly, 2]),
    wmget: gives([aWeakMap, 2]), wmhas: gives([aWeakMap, 2]), wmdelete: gives([aWeakMap, 2]),
    wsadd: asks([aWeakSet, 1], [heldWeakly, 2]), wshas: gives([aWeakSet, 2]), wsdelete: gives([aWeakSet, 2]),
    unregister: gives([aRegistry, 2], [heldWeakly, 3]),
    length: gives([aBuffer, 2]), sameblock: gives([aBuffer, 2], [aBuffer, 3]),
    load: onWord(2, 1), store: onWord(1, 2), add: onWord(2, 2), sub: onWord(2, 2), and: onWord(2, 2), or: onWord(2, 2),
    xor: onWord(2, 2), exchange: onWord(2, 2), compareexchange: onWord(2, 3), wait: onWord(2, 2), notify: onWord(2, 2),
  };
  // The commands that read a word, write one for it, and give the one that was there.
  const exchanging = {
    add: "add", sub: "sub", and: "and", or: "or", xor: "xor", exchange: "exchange", compareexchange: "compareExchange",
  };
  // A command, without the `try` and the variable that it may stand behind.
  const bared = (c) => (c[0] === "try" ? c.slice(2) : c);
  const briefly = 1; // the milliseconds of a wait of an agent that nobody can wake

  // What nothing holds shows that the engine collects. A canary that is made in a job KeptAlive has to its end, so those
  // that are to show collections in it are made in a job before, and held until the collection that was asked for has
  // ended. A collection of what is young may pass them by, so young ones stand beside them.
  class Canaries {
    ready = [];
    now = { young: false };
    called = 0;
    cells = new Cells((set) => {
      this.called += 1;
      (typeof set === "object" ? set : this.now).young = true; // an engine may give another held value
    });

    // Makes sets for so many collections to come, in a job of its own.
    prepare(count) {
      while (this.ready.length < count) {
        const held = [{}, {}, {}, {}], [before, ...after] = held.map((value) => new WeakRef(value));
        this.ready.push({ held, before, after, young: false });
      }
    }
    // Lets go of a set, which shows the collections from here on.
    release() {
      this.prepare(1);
      this.now = this.ready.pop();
      this.now.held.length = 0;
      this.now.fresh = new WeakRef({});
      this.cells.register({}, this.now);
    }
    // Whether the engine collected since the last set was let go of.
    show() {
      const { before, fresh, young } = this.now;
      return young || (before !== undefined && (isEmpty(before) || isEmpty(fresh)));
    }
    // Whether the collection that ended just now took what nothing held, or some of it, since an engine may take what lies
    // in its stack for held. Of the first one there is nothing to show it.
    wasComplete() { return this.now.after === undefined || this.now.after.some(isEmpty); }
  }
  const isEmpty = (ref) => deref.call(ref) === undefined;
  const canaries = new Canaries();

  class Agent {
    vars = new Map();
    made = 0;
    out = [];
    registries = [];
    registered = 0;
    numbers = new Map(); // of registrations, by FinalizationRegistry and held value
    unregistered = 0;
    taken = 0;
    opened = 0;
    posted = 0;
    received = 0;

    // The place is that among the agents, from 0. Where it tells, lines that begin with `#` stand among those of the
    // report: what commands gave, and where jobs and callbacks end. `send` posts a message to the agent of a name.
    constructor({ name, callbacks, jobs }, place, host, { tells = false, send } = {}) {
      this.name = name;
      this.callbacks = callbacks;
      this.jobs = jobs;
      this.place = place;
      this.host = host;
      this.tells = tells;
      this.send = send;
    }
    note(text) {
      if (this.tells) this.out.push(`# ${text}`);
    }
    // A number for a new value.
    number() {
      if (this.made >= mostValues) throw new Refused("limit: values");
      return ++this.made;
    }
    show(value) {
      switch (typeof value) {
        case "string": return JSON.stringify(value);
        case "symbol": {
          const key = Symbol.keyFor(value);
          return key === undefined ? `symbol ${value.description}` : `symbolfor "${key}"`;
        }
        case "object": {
          const kind = kinds.find(([of]) => value instanceof of);
          return kind ? `object ${kind[1].numberOf(value)}` : "object that the plan did not make";
        }
        default: return String(value);
      }
    }
    object(name) {
      const value = this.vars.get(name);
      if (typeof value !== "object") throw new Refused("TypeError: not an object");
      return value;
    }
    // What goes to another agent for a value, which would lose a symbol's key and a buffer's block.
    message(value) {
      if (isBuffer(value)) return { block: Shared.blockOf(value), buffer: value };
      const key = typeof value === "symbol" ? Symbol.keyFor(value) : undefined;
      if (key !== undefined) return { key };
      if (typeof value === "object" || typeof value === "symbol") {
        this.refuseToClone(value);
        throw new Refused("DataCloneError: value cannot be posted");
      }
      return value;
    }
    // Structured clone takes objects without a kind, which no plan may post. All others it refuses, and is asked to.
    refuseToClone(value) {
      if (!this.host.clone || value instanceof Thing) return;
      try { this.host.clone(value); } catch { return; }
      throw new Refused("none, though the value cannot be posted");
    }
    // The value that came as this message.
    value(message) {
      if (typeof message !== "object") return message;
      if ("key" in message) return Symbol.for(message.key);
      return new Shared(message.buffer, this.number(), message.block);
    }
    // What the engine calls, with a held value or with the number of a registration and its held value. A held value that
    // no registration of the FinalizationRegistry has is that of number 0.
    clean({ registry, commands }, cell) {
      const [number, held] = Array.isArray(cell) ? cell : [this.numbers.get(this.nameOf(registry, cell)) ?? 0, cell];
      this.taken += 1;
      this.out.push(`cleanup ${number} held ${this.show(held)}`);
      this.vars.set("held", held);
      try {
        this.performAll(commands);
      } catch (e) {
        if (!(e instanceof Refused && this.host.swallows)) throw e;
      } finally {
        this.note(`cleaned ${number}`);
      }
    }
    nameOf(registry, held) { return `${registry} ${this.show(held)}`; }
    // What tells a registration in its callback is the held value, where none before it had the same; else its number,
    // beside the held value. No value of a plan is an array.
    register(registry, target, held, token) {
      if (Object.is(target, held)) {
        register.call(registry, target, held, token);
        throw new Refused("none, though target and held value are the same");
      }
      const number = this.registered + 1, of = registry instanceof Registry ? Registry.numberOf(registry) : 0;
      const name = this.tells ? this.nameOf(of, held) : undefined;
      const isBare = this.tells && !this.numbers.has(name);
      register.call(registry, target, isBare ? held : [number, held], token);
      this.registered = number;
      if (isBare) this.numbers.set(name, number);
    }
    // A collection that was asked for, and what the canaries show of it.
    collect() {
      if (!this.tells) return this.host.collect();
      if (canaries.show()) this.note("collected");
      this.host.collect();
      if (!canaries.wasComplete()) this.note("not complete");
      canaries.release();
    }
    perform(c) {
      const { vars } = this;
      switch (c[0]) {
        case "let": vars.set(c[1], c[2] === null ? undefined : c[2]); break;
        case "new": vars.set(c[1], new Thing(this.number())); break;
        case "symbol": vars.set(c[1], Symbol(String(this.number()))); break;
        case "symbolfor": vars.set(c[1], Symbol.for(c[2])); break;
        case "copy": vars.set(c[1], vars.get(c[2])); break;
        case "same": vars.set(c[1], Object.is(vars.get(c[2]), vars.get(c[3]))); break;
        case "say": this.out.push(`say ${this.show(vars.get(c[1]))}`); break;
        case "set": {
          const at = this.object(c[1]), value = vars.get(c[3]);
          // A name such as `constructor` or `__proto__`, which the object inherits, must become its own.
          if (c[2] in at && !hasOwnProperty.call(at, c[2])) {
            Object.defineProperty(at, c[2], { value, writable: true, enumerable: true, configurable: true });
          } else {
            at[c[2]] = value;
          }
          break;
        }
        case "get": {
          const at = this.object(c[2]);
          vars.set(c[1], hasOwnProperty.call(at, c[3]) ? at[c[3]] : undefined);
          break;
        }
        case "delete": vars.set(c[1], Reflect.deleteProperty(this.object(c[2]), c[3])); break;
        case "keys": this.out.push(["keys", ...Object.keys(this.object(c[1]))].join(" ")); break;
        case "weakref": {
          const made = new Ref(this.made + 1, vars.get(c[2]));
          this.number();
          vars.set(c[1], made);
          break;
        }
        case "deref": {
          const target = deref.call(vars.get(c[2]));
          if (this.tells) this.note(`deref ${this.show(target)}`);
          vars.set(c[1], target);
          break;
        }
        case "weakmap": vars.set(c[1], new Entries(this.number())); break;
        case "wmset": mapSet.call(vars.get(c[1]), vars.get(c[2]), vars.get(c[3])); break;
        case "wmget": vars.set(c[1], mapGet.call(vars.get(c[2]), vars.get(c[3]))); break;
        case "wmhas": vars.set(c[1], mapHas.call(vars.get(c[2]), vars.get(c[3]))); break;
        case "wmdelete": vars.set(c[1], mapDelete.call(vars.get(c[2]), vars.get(c[3]))); break;
        case "weakset": vars.set(c[1], new Members(this.number())); break;
        case "wsadd": setAdd.call(vars.get(c[1]), vars.get(c[2])); break;
        case "wshas": vars.set(c[1], setHas.call(vars.get(c[2]), vars.get(c[3]))); break;
        case "wsdelete": vars.set(c[1], setDelete.call(vars.get(c[2]), vars.get(c[3]))); break;
        case "registry": {
          const from = { registry: this.made + 1, commands: this.callbacks[c[2]] };
          const made = new Registry(this.number(), (cell) => this.clean(from, cell));
          this.registries.push(made);
          vars.set(c[1], made);
          break;
        }
        case "register": this.register(...c.slice(1).map((name) => vars.get(name))); break;
        case "unregister": {
          const found = unregister.call(vars.get(c[2]), vars.get(c[3]));
          this.unregistered += found;
          vars.set(c[1], found);
          break;
        }
        case "collect": this.collect(); break;
        case "buffer": {
          const number = this.number();
          if (this.opened === mostBlocks) {
            this.made -= 1;
            throw new Refused("limit: blocks");
          }
          const block = this.place * mostBlocks + this.opened++;
          vars.set(c[1], new Shared(new SharedArrayBuffer(4 * c[2]), number, block));
          break;
        }
        case "length": vars.set(c[1], Shared.wordsOf(vars.get(c[2])).length); break;
        case "sameblock": vars.set(c[1], Shared.blockOf(vars.get(c[2])) === Shared.blockOf(vars.get(c[3]))); break;
        case "load": vars.set(c[1], Atomics.load(Shared.wordsOf(vars.get(c[2])), this.operand(c[3]))); break;
        case "store": Atomics.store(Shared.wordsOf(vars.get(c[1])), this.operand(c[2]), this.operand(c[3])); break;
        case "add": case "sub": case "and": case "or": case "xor": case "exchange": case "compareexchange": {
          const operands = c.slice(3).map((operand) => this.operand(operand));
          vars.set(c[1], Atomics[exchanging[c[0]]](Shared.wordsOf(vars.get(c[2])), ...operands));
          break;
        }
        case "wait": {
          const signed = new Int32Array(Shared.wordsOf(vars.get(c[2])).buffer);
          vars.set(c[1], Atomics.wait(signed, this.operand(c[3]), this.operand(c[4]), briefly));
          break;
        }
        case "notify": {
          const signed = new Int32Array(Shared.wordsOf(vars.get(c[2])).buffer);
          vars.set(c[1], Atomics.notify(signed, ...c.slice(3).map((operand) => this.operand(operand))));
          break;
        }
        case "try":
          try {
            this.do(c.slice(2));
          } catch (e) {
            vars.set(c[1], this.named(e, c.slice(2)));
          }
          break;
        case "post": {
          const message = this.message(vars.get(c[2]));
          if (this.posted === mostPosts) throw new Refused("limit: posts");
          this.posted += 1;
          this.send(c[1], message);
          break;
        }
      }
    }
    // A number, or what stands for the value of a variable.
    operand(operand) { return typeof operand === "number" ? operand : operandOf(this.vars.get(operand)); }
    // Performs a command, and tells what it gave.
    do(command) {
      this.perform(command);
      if (this.tells && rules[command[0]]?.gives) this.note(`gave ${this.show(this.vars.get(command[1]))}`);
    }
    // The report's words for the engine's error.
    named(e, c) {
      if (e instanceof Refused) return e.message;
      if (e instanceof RangeError && rules[c[0]]?.onWord) return "RangeError: index";
      if (e instanceof TypeError && c !== undefined) {
        const failed = this.failed(c);
        if (failed !== undefined) return failed;
      }
      return `${e} (as the engine has it)`;
    }
    // The words of the first test of a command that fails.
    failed(c) {
      const values = c.map((name) => this.vars.get(name));
      if (c[0] === "register") return this.notRegistered(values);
      const failing = rules[c[0]]?.tests.find(([{ test }, at]) => throws(test, values[at]));
      return failing && failing[0].text;
    }
    notRegistered([, registry, target, held, token]) {
      if (throws(aRegistry.test, registry)) return aRegistry.text;
      if (throws(heldWeakly.test, target)) return heldWeakly.text;
      if (Object.is(target, held)) return "TypeError: target and held value are the same";
      return token !== undefined && throws(heldWeakly.test, token) ? heldWeakly.text : undefined;
    }
    // A refusal is told, and thrown on. Where the commands are of a job that waited, the message is assigned to X first.
    performAll(commands, x, message) {
      let command;
      try {
        if (x !== undefined) this.vars.set(x, this.value(message));
        for (command of commands) this.do(command);
      } catch (e) {
        const text = this.named(e, command);
        this.out.push(`error ${text}`);
        throw new Refused(text);
      }
    }
    // Runs a job, in a job of the engine that the caller has begun, and waits as long as the engine calls callbacks.
    async runNow({ on, run }, message) {
      this.note("job");
      try {
        this.performAll(run, on && on[1], message);
      } catch (e) {
        if (!(e instanceof Refused)) throw e;
      }
      this.note("ended");
      for (let before = -1; this.registries.length > 0 && before !== this.taken + canaries.called;) {
        before = this.taken + canaries.called;
        await this.host.wait();
      }
    }
    // Runs a job in one of the engine's own, and tells whether the engine collected without being asked.
    async run(job, message) {
      await this.host.task();
      canaries.prepare(job.run.filter((command) => bared(command)[0] === "collect").length + 1);
      await this.host.task();
      await this.runNow(job, message);
      await this.host.task();
      if (canaries.show()) {
        this.note("collected");
        canaries.release();
      }
    }
    end() {
      const live = this.registered - this.unregistered - this.taken;
      return `end live ${live} awaiting 0 unregistered ${this.unregistered} taken ${this.taken}`;
    }
  }
  function throws(test, value) {
    try { test(value); } catch { return true; }
    return false;
  }

  // The agents of a plan in one thread, by turns: each time the first that can move moves, by one whole job, a skip, or
  // its end; an agent can't move whose next job waits for a message of one that has not ended. Where no agent can move,
  // the first skips its job.
  class Cluster {
    constructor(agents, host, tells) {
      this.agents = agents.map((agent, place) => new Agent(agent, place, host, {
        tells, send: (receiver, message) => this.port(agent.name, receiver).push(message),
      }));
      this.host = host;
      this.ports = new Map();
      this.done = agents.map(() => 0);
      this.ended = new Set();
    }
    port(sender, receiver) {
      const key = `${sender} ${receiver}`;
      if (!this.ports.has(key)) this.ports.set(key, []);
      return this.ports.get(key);
    }
    next(agent) { return agent.jobs[this.done[agent.place]]; }
    lacks(agent) {
      const job = this.next(agent);
      return job !== undefined && job.on !== undefined && this.port(job.on[0], agent.name).length === 0;
    }
    stays(agent) { return this.lacks(agent) && !this.ended.has(this.next(agent).on[0]); }
    async run() {
      for (;;) {
        const going = this.agents.filter(({ name }) => !this.ended.has(name));
        if (going.length === 0) return;
        await this.move(going.find((agent) => !this.stays(agent)) || going[0]);
      }
    }
    async move(agent) {
      const job = this.next(agent);
      if (job === undefined) {
        this.ended.add(agent.name);
        return;
      }
      const skips = this.lacks(agent);
      this.done[agent.place] += 1;
      if (skips) agent.out.push(`skipped ${this.done[agent.place]}`);
      else await agent.run(job, job.on && this.take(job.on[0], agent));
    }
    take(sender, agent) {
      agent.received += 1;
      const message = this.port(sender, agent.name).shift();
      const isBlock = typeof message === "object" && "block" in message;
      return isBlock ? { ...message, buffer: this.host.clone(message.buffer) } : message;
    }
  }
  const runsOf = (agent) => [...agent.jobs.map((job) => job.run), ...Object.values(agent.callbacks)];
  const posts = (run) => run.some((command) => bared(command)[0] === "post");
  const sleeps = (run) => run.some((command) => bared(command)[0] === "wait");
  // Whether agents post or wait. One agent has nobody to post to, so that its plan need not be looked through.
  function hasMessages(agents) {
    return agents.length > 1 && agents.some((agent) => agent.jobs.some((job) => job.on) || runsOf(agent).some(posts));
  }
  // What commands need that an engine may lack.
  const needed = {
    buffer: "SharedArrayBuffer", load: "Atomics", store: "Atomics", wait: "Atomics", notify: "Atomics",
    ...Object.fromEntries(Object.keys(exchanging).map((word) => [word, "Atomics"])),
    registry: "FinalizationRegistry", register: "FinalizationRegistry", unregister: "FinalizationRegistry",
  };
  // Why a plan can't be run here, if it can't.
  function lacking(agents, host) {
    if (hasMessages(agents) && !host.clone) return "this host has no messages";
    if (agents.length > 1 && agents.flatMap(runsOf).some(sleeps)) return "agents of one thread can't sleep";
    const names = agents.flatMap(runsOf).flat().map((command) => needed[bared(command)[0]]);
    const absent = names.find((name) => name !== undefined && globalThis[name] === undefined);
    return absent && `no ${absent}`;
  }
  // Answers lines of JSON, each a plan, with lines of JSON: the lines of each agent, with what it tells beside them.
  async function answer(lines, host) {
    for (const line of lines) {
      const { agents } = JSON.parse(line), skipped = lacking(agents, host);
      if (skipped) {
        host.write(JSON.stringify({ skipped }));
        continue;
      }
      await host.task();
      if (canaries.show()) canaries.release(); // what shows collections of the plan before is no longer asked
      const cluster = new Cluster(agents, host, true);
      await cluster.run();
      host.write(JSON.stringify({ agents: cluster.agents.map(({ out }) => out) }));
    }
  }
  return { Agent, Cluster, Refused, answer, hasMessages, runsOf };
})();
