// What the commands of a plan give, at once, so that a script can go on. It is a guess: the engine runs the whole plan
// afterwards, and each answer is compared with the engine's (confirming.mjs).
//
// Each agent has a machine. It follows docs/PLANS.md, with the script's own values in the place of the plan's.

import { hasIdentity, isInPlan } from "./values.mjs";

/** What a collection looks at, as it is now: what each value holds, and the roots. */
class Graph {
  constructor(machine) {
    const { variables, keptAlive, registries, registrations, things } = machine;
    const held = registrations.filter(({ state }) => state === "there").map((cell) => cell.held);
    this.things = things.filter((thing) => !thing.isEmptied);
    this.roots = [...variables.values(), ...keptAlive, ...registries, ...held];
    this.holds = new Map(this.things.map((thing) => [thing, thing.edges ? [...thing.edges.values()] : []]));
    this.entries = new Map();
    for (const map of this.things) for (const [key, value] of map.entries ?? []) this.addEntry({ map, key, value });
  }

  addEntry(entry) {
    for (const one of [entry.map, entry.key]) {
      if (!this.entries.has(one)) this.entries.set(one, []);
      this.entries.get(one).push(entry);
    }
  }

  /** What nothing reaches from the roots and from some more values. */
  unreached(more = []) {
    const reached = new Set();
    const next = [...this.roots, ...more];
    while (next.length > 0) {
      const value = next.pop();
      if (!isInPlan(value) || reached.has(value)) continue;
      reached.add(value);
      next.push(...(this.holds.get(value) ?? []));
      for (const { map, key, value: under } of this.entries.get(value) ?? []) {
        if (reached.has(map) && reached.has(key)) next.push(under);
      }
    }
    return this.things.filter((thing) => !reached.has(thing));
  }
}

export class Machine {
  variables = new Map();
  keptAlive = new Set();
  /** All that was made, in order of the numbers. */
  things = [];
  registries = [];
  registrations = [];
  queue = [];
  /** What happened, in order, to be compared with the engine's trace. */
  events = [];
  collections = 0;
  /** The collection that is open, with what a deref gave since. */
  open = null;

  /** `answers` says what the engine answered to the first collections, as numbers of what was emptied. */
  constructor(answers = []) {
    this.answers = answers;
  }

  /** Does a command. `given` is the value that it makes or assigns, where the command alone does not say it. */
  perform(command, given) {
    const answer = DOES[command[0]](this, command, given);
    this.events.push({ command, answer });
    return answer;
  }

  value(name) {
    return this.variables.get(name);
  }

  assign(name, value) {
    const old = this.variables.get(name);
    if (hasIdentity(old)) old.variables.delete(name);
    if (value === undefined) this.variables.delete(name);
    else this.variables.set(name, value);
    if (hasIdentity(value)) value.variables.add(name);
    return value;
  }

  make(name, thing) {
    thing.number = this.things.push(thing);
    return this.assign(name, thing);
  }

  /** A variable gets a message; a buffer that came is a new object. */
  receive(name, message) {
    return message?.kind === "buffer" ? this.make(name, message) : this.assign(name, message);
  }

  keep(value) {
    if (hasIdentity(value)) this.keptAlive.add(value);
  }

  /** Empties what a graph has that is not reached, or what the engine said. */
  empty(graph, more) {
    const said = this.answers[this.collections];
    this.collections += 1;
    const emptied = said ? said.map((number) => this.things[number - 1]) : graph.unreached(more);
    for (const thing of emptied) thing.isEmptied = true;
    for (const { entries, members } of this.things) {
      for (const key of entries?.keys() ?? []) if (key.isEmptied) entries.delete(key);
      for (const key of members ?? []) if (key.isEmptied) members.delete(key);
    }
    this.#enqueue(new Set(emptied));
    return emptied.map(({ number }) => number);
  }

  /** FinalizationRegistries with a registration of which the target was emptied now are queued, by rising number. */
  #enqueue(emptied) {
    const due = new Set(this.registrations.filter(({ state, target }) => state === "there" && emptied.has(target)).map(({ registry }) => registry));
    for (const registry of this.registries) if (due.has(registry) && !this.queue.includes(registry)) this.queue.push(registry);
  }

  endJob() {
    if (this.open) {
      this.events.push({ emptied: this.empty(this.open.graph, this.open.given) });
      this.open = null;
    }
    this.keptAlive.clear();
  }

  /** The registration that a cleanup job of a registry takes next. */
  due(registry) {
    return this.registrations.find((cell) => cell.registry === registry && cell.state === "there" && cell.target.isEmptied);
  }

  take(cell) {
    cell.state = "taken";
    this.events.push({ taken: cell.number });
    this.assign("held", cell.held);
  }
}

const set = (thing, key, value) => {
  if (value === undefined) thing.edges.delete(key);
  else thing.edges.set(key, value);
};

/** What a command makes of a word, by numbers from 0 to 2^32 - 1. A block takes it modulo 2^32. */
const CHANGES = {
  add: (old, number) => old + number, and: (old, number) => old & number, or: (old, number) => old | number,
  xor: (old, number) => old ^ number, exchange: (old, number) => number,
  compareexchange: (old, expected, number) => (old === expected ? number : old),
};

/** A command that changes a word gives what it was. */
const changing = (change) => (machine, [, x, b, i, ...numbers]) => {
  const { words } = machine.value(b).block;
  const old = words[i];
  words[i] = change(old, ...numbers.map((number) => number >>> 0));
  return machine.assign(x, old);
};

/** The value after the operands are read. */
const DOES = {
  let: (machine, [, x], given) => machine.assign(x, given),
  new: (machine, [, x], given) => machine.make(x, given),
  symbol: (machine, [, x], given) => machine.make(x, given),
  symbolfor: (machine, [, x], given) => machine.assign(x, given),
  copy: (machine, [, x, y]) => machine.assign(x, machine.value(y)),
  same: (machine, [, x, y, z]) => machine.assign(x, Object.is(machine.value(y), machine.value(z))),
  say: () => undefined,
  set: (machine, [, o, key, y]) => set(machine.value(o), key, machine.value(y)),
  get: (machine, [, x, o, key]) => machine.assign(x, machine.value(o).edges.get(key)),
  delete: (machine, [, x, o, key]) => {
    machine.value(o).edges.delete(key);
    return machine.assign(x, true);
  },
  weakref: (machine, [, x, y], given) => {
    given.target = machine.value(y);
    machine.keep(given.target);
    return machine.make(x, given);
  },
  deref: (machine, [, x, w]) => {
    const { target } = machine.value(w);
    if (target.isEmptied) return machine.assign(x, undefined);
    machine.keep(target);
    machine.open?.given.push(target);
    return machine.assign(x, target);
  },
  weakmap: (machine, [, x], given) => machine.make(x, Object.assign(given, { entries: new Map() })),
  wmset: (machine, [, m, y, z]) => void machine.value(m).entries.set(machine.value(y), machine.value(z)),
  wmget: (machine, [, x, m, y]) => machine.assign(x, machine.value(m).entries.get(machine.value(y))),
  wmhas: (machine, [, x, m, y]) => machine.assign(x, machine.value(m).entries.has(machine.value(y))),
  wmdelete: (machine, [, x, m, y]) => machine.assign(x, machine.value(m).entries.delete(machine.value(y))),
  weakset: (machine, [, x], given) => machine.make(x, Object.assign(given, { members: new Set() })),
  wsadd: (machine, [, s, y]) => void machine.value(s).members.add(machine.value(y)),
  wshas: (machine, [, x, s, y]) => machine.assign(x, machine.value(s).members.has(machine.value(y))),
  wsdelete: (machine, [, x, s, y]) => machine.assign(x, machine.value(s).members.delete(machine.value(y))),
  registry: (machine, [, x], given) => {
    machine.registries.push(given);
    return machine.make(x, given);
  },
  register: (machine, [, r, y, h, t]) => {
    const [registry, target, held, token] = [r, y, h, t].map((name) => machine.value(name));
    machine.registrations.push({ number: machine.registrations.length + 1, registry, target, held, token, state: "there" });
  },
  unregister: (machine, [, x, r, t]) => {
    const [registry, token] = [machine.value(r), machine.value(t)];
    const found = machine.registrations.filter((cell) => cell.registry === registry && cell.token === token && cell.state === "there");
    for (const cell of found) cell.state = "unregistered";
    return machine.assign(x, found.length > 0);
  },
  buffer: (machine, [, x], given) => machine.make(x, given),
  length: (machine, [, x, b]) => machine.assign(x, machine.value(b).block.words.length),
  sameblock: (machine, [, x, b, d]) => machine.assign(x, machine.value(b).block === machine.value(d).block),
  load: (machine, [, x, b, i]) => machine.assign(x, machine.value(b).block.words[i]),
  store: (machine, [, b, i, n]) => void (machine.value(b).block.words[i] = n),
  ...Object.fromEntries(Object.entries(CHANGES).map(([word, change]) => [word, changing(change)])),
  wait: (machine, [, x], given) => machine.assign(x, given),
  notify: (machine, [, x], given) => machine.assign(x, given),
  post: () => undefined,
  try: (machine, [, x], error) => machine.assign(x, error),
  collect: (machine) => machine.empty(new Graph(machine)),
  collectlater: (machine) => void (machine.open = { graph: new Graph(machine), given: [] }),
};
