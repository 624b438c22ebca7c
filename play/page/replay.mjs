// What a run did, from the lines of its trace, and what each agent has after each of them. The engine says what happened and
// what keeps a value; the heap is made of it here, for the picture.

import { Names } from "./names.mjs";

/** The number of an object or a symbol as a line has it; null of other values. */
export function identityOf(value) {
  return value?.object ?? value?.symbol ?? null;
}

/** A variable of a script's plan that is none of the script: what an expression makes on its way stands in it. */
const TEMPORARY = /^_c?\d+$/;

/** The rows of a trace: each is a line, with its agent (null of the ledger's), the place of its command in the plan (null where
    it has none), what KeptAlive takes in or lets go by it, and, after a collection, what keeps each value, by its number. Of a
    callback that is called it has the target of the registration. The plan says which variable a message goes to. A script's
    has temporaries, which are not told. */
export class Trace {
  constructor(text, plan, { isScript = false } = {}) {
    this.plan = plan;
    this.agents = JSON.parse(plan).agents;
    this.isScript = isScript;
    this.rows = [];
    /** By agents: what it has after the last row, and what its values are called. */
    this.heaps = new Map(this.agents.map(({ name }) => [name, this.heap(name)]));
    this.names = new Map([...this.heaps].map(([name, { kinds }]) => [name, new Names(kinds, (variable) => this.hides(variable))]));
    /** The blocks that messages carry, the oldest first, by sender and receiver. */
    this.ports = new Map();
    this.runs = new Map(this.agents.map(({ name }, number) => [name, new Run(number)]));
    for (const line of text.split("\n")) {
      if (line !== "") this.add(JSON.parse(line));
    }
  }

  add(line) {
    BLOCKS[line.ledger]?.(this, line);
    if (line.event === "kept") this.rows.at(-1).kept.set(line.identity, line.by);
    else if (line.event) this.addOfAgent(line);
    else this.rows.push({ line, agent: null, place: null, kept: null });
  }

  addOfAgent(line) {
    const { agent } = line, heap = this.heaps.get(agent);
    const row = { line, agent, place: this.runs.get(agent).placeOf(line), kept: keptBy(line), takes: null, letsGo: NONE, target: null };
    if (line.event === "job ends") row.letsGo = [...heap.keptAlive];
    if (line.event === "taken") row.target = heap.registrations.get(line.registration).first;
    const before = heap.keptAlive.size;
    heap.apply(line);
    if (heap.keptAlive.size > before) row.takes = [...heap.keptAlive].at(-1);
    this.name(line, heap);
    this.rows.push(row);
  }

  /** A value without a name gets that of the variable that it is assigned to, or of the property. */
  name({ agent, event, command, values, value, answer, held, variable, identities }, heap) {
    const names = this.names.get(agent), row = this.rows.length;
    if (event === "message") names.assign(heap.jobs[heap.passed].on[1], identityOf(value), row);
    if (event === "taken") names.assign("held", identityOf(held), row);
    if (event === "caught") names.assign(variable, null, row);
    if (event === "emptied") names.empty(identities, row);
    if (event !== "did") return;
    if (command[0] === "set") names.setProperty(identityOf(values[0]), command[2], identityOf(values[1]), row);
    if (command[0] === "delete") names.setProperty(identityOf(values[0]), command[3], null, row);
    if (answer?.gives !== undefined) names.assign(command[1], identityOf(answer.gives), row);
  }

  /** A value of an agent as it is told after a row. */
  told(agent, identity, row, known) {
    return this.names.get(agent).told(identity, row, known);
  }

  /** Whether a variable is not told. */
  hides(variable) {
    return this.isScript && TEMPORARY.test(variable);
  }

  /** The blocks that lie in a port. */
  port({ sender, receiver }) {
    const name = `${sender} ${receiver}`;
    if (!this.ports.has(name)) this.ports.set(name, []);
    return this.ports.get(name);
  }

  /** The heap of an agent before its first row. */
  heap(agent) {
    return new Heap({ ...this.agents.find(({ name }) => name === agent), hides: (variable) => this.hides(variable) });
  }

  /** The newest row up to this one in which an agent had a collection; -1 where there is none. */
  collection(agent, row) {
    while (row >= 0 && !(this.rows[row].agent === agent && this.rows[row].kept)) row -= 1;
    return row;
  }
}

const NONE = [];
const keptBy = ({ event }) => (event === "emptied" ? new Map() : null);

/** How far an agent is in its plan: in which job or callback, and how many commands of it came. */
class Run {
  constructor(agent) {
    Object.assign(this, { agent, part: null, count: 0, registry: null, callbacks: new Map() });
  }

  /** The place of a line's command: the agent's number, the job's number or the callback's name, and the command's number. */
  placeOf({ event, job, registry, command, answer }) {
    if (event === "job") this.begin({ job });
    if (event === "cleanup job") this.registry = registry;
    if (event === "taken") this.begin({ callback: this.callbacks.get(this.registry) });
    if (event === "did" && command[0] === "registry") this.callbacks.set(answer.gives.object, command[2]);
    if (!command) return null;
    this.count += 1;
    return { agent: this.agent, ...this.part, command: this.count };
  }

  begin(part) {
    this.part = part;
    this.count = 0;
  }
}

/** What a line of the ledger says of blocks: the agent's line before it gets the block of the buffer that it made. */
const BLOCKS = {
  opened: (trace, { block }) => { trace.rows.at(-1).line.block = block; },
  posted: (trace, line) => trace.port(line).push(line.carries?.block ?? null),
  taken: (trace, line) => { trace.rows.at(-1).line.block = trace.port(line).shift(); },
};

/** What an agent has: variables, KeptAlive, its objects and symbols by their numbers, and the registrations whose cells are in
    their registries. Values are as lines have them. */
export class Heap {
  constructor({ jobs, hides = () => false }) {
    this.jobs = jobs;
    this.hides = hides;
    this.passed = 0;
    this.isCleaning = false;
    this.variables = new Map();
    this.keptAlive = new Set();
    this.things = new Map();
    this.registrations = new Map();
    this.registered = 0;
    /** The kind of all that was ever made. */
    this.kinds = new Map();
    /** What the last event emptied. */
    this.emptied = [];
  }

  /** A new value; a buffer has a block. */
  make(value, kind, block = null) {
    const identity = identityOf(value);
    this.kinds.set(identity, kind);
    this.things.set(identity, { kind, block, properties: new Map(), entries: new Map(), members: new Set(), target: null });
  }

  assign(variable, value) {
    this.variables.set(variable, value);
  }

  /** The variables that are told, each with its value. */
  get told() {
    return [...this.variables].filter(([name]) => !this.hides(name));
  }

  /** Takes over a line of this agent. */
  apply(line) {
    this.emptied = [];
    this[EVENTS[line.event]]?.(line);
  }

  beginCleanup() {
    this.isCleaning = true;
  }

  receive({ value, block }) {
    if (identityOf(value) !== null) this.make(value, "SharedArrayBuffer", block);
    this.assign(this.jobs[this.passed].on[1], value);
  }

  take({ registration, held }) {
    this.registrations.delete(registration);
    this.assign("held", held);
  }

  /** A caught refusal changes the variable alone. */
  catch({ variable, error }) {
    this.assign(variable, error);
  }

  endJob() {
    this.keptAlive.clear();
    if (!this.isCleaning) this.passed += 1;
    this.isCleaning = false;
  }

  skip() {
    this.passed += 1;
  }

  do({ command: [word, ...operands], values, answer, block }) {
    const kind = MADE[word];
    if (kind !== undefined) this.make(answer.gives, kind, block);
    const read = values.map((value) => ({ value, identity: identityOf(value), thing: this.things.get(identityOf(value)) }));
    COMMANDS[word]?.(this, operands, read, answer);
    if (answer?.gives !== undefined) this.assign(operands[0], answer.gives);
  }

  empty({ identities }) {
    this.emptied = identities;
    const gone = new Set(identities);
    for (const identity of identities) this.things.delete(identity);
    for (const thing of this.things.values()) {
      for (const key of thing.entries.keys()) if (gone.has(key)) thing.entries.delete(key);
      for (const member of thing.members) if (gone.has(member)) thing.members.delete(member);
      if (gone.has(thing.target)) thing.target = null;
    }
    for (const cell of this.registrations.values()) {
      if (gone.has(cell.target)) cell.target = null;
      if (gone.has(cell.token)) cell.token = null;
    }
  }
}

/** What each event does; the others change no heap. */
const EVENTS = {
  "cleanup job": "beginCleanup", "message": "receive", "did": "do", "caught": "catch", "emptied": "empty", "taken": "take",
  "job ends": "endJob", "skipped": "skip",
};
/** What commands make. */
const MADE = {
  new: "object", symbol: "symbol", weakref: "WeakRef", weakmap: "WeakMap", weakset: "WeakSet", registry: "FinalizationRegistry",
  buffer: "SharedArrayBuffer",
};
/** What commands change beside the variable that they assign: of a heap, by the operands, the values that were read, and the
    answer. */
const COMMANDS = {
  set: (_, [, key], [{ thing }, { value }]) => thing.properties.set(key, value),
  delete: (_, [, , key], [{ thing }]) => thing.properties.delete(key),
  weakref: (heap, _, [{ identity }], { gives }) => {
    heap.things.get(identityOf(gives)).target = identity;
    heap.keptAlive.add(identity);
  },
  deref: (heap, _, __, { gives }) => {
    if (identityOf(gives) !== null) heap.keptAlive.add(identityOf(gives));
  },
  wmset: (_, __, [{ thing }, { identity }, { value }]) => thing.entries.set(identity, value),
  wmdelete: (_, __, [{ thing }, { identity }]) => thing.entries.delete(identity),
  wsadd: (_, __, [{ thing }, { identity }]) => thing.members.add(identity),
  wsdelete: (_, __, [{ thing }, { identity }]) => thing.members.delete(identity),
  register: (heap, _, [{ identity: registry }, { identity: target }, { value: held }, token]) => {
    heap.registered += 1;
    heap.registrations.set(heap.registered, { registry, target, first: target, held, token: token?.identity ?? null });
  },
  unregister: (heap, _, [{ identity: registry }, { identity: token }]) => {
    for (const [number, cell] of heap.registrations) {
      if (cell.registry === registry && cell.token === token) heap.registrations.delete(number);
    }
  },
};
