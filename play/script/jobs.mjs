// An agent and its jobs. It does its tasks in order of time, each in a job of the plan, with the microtasks that come of it; after
// each job come the callbacks of what a collection emptied.

import { Context } from "./core.mjs";
import { Held } from "./bindings.mjs";
import { Run } from "./commands.mjs";
import { Coroutine, running } from "./coroutines.mjs";
import { Again, ScriptFault, Thrown } from "./faults.mjs";
import { nameLike } from "./keys.mjs";
import { proceed } from "./promises.mjs";
import { installAll } from "./installing.mjs";
import { comesFirst, placeOf } from "./order.mjs";
import { Writer } from "./writer.mjs";
import { Thing, hasIdentity, isInPlan, planned } from "./values.mjs";

const MOST_JOBS = 1000;
const TOO_MANY_JOBS = "an agent would have more than 1,000 jobs; others have their turns where it waits for a message";
/** What two calls of a callback may not differ in: the commands, and what a line shows in another way than the report. */
const written = ({ commands, places }) => JSON.stringify([commands, places.map(({ say }) => say?.shown)]);

export class Agent {
  jobs = [];
  callbacks = new Map();
  tasks = [];
  microtasks = [];
  /** Promises that were rejected, and for which nobody waits yet. */
  rejected = new Set();
  calls = 0;
  now = 0;
  hasEnded = false;
  isCleaning = false;
  /** Where it sleeps: at a word of a block, until it is told how that ended (`answer`). */
  sleep = null;
  /** What is left of the move in which it fell asleep. */
  #rest = null;
  #order = 0;
  /** What was set last before the job began. */
  #begun = 0;
  /** Of how many timers in a chain the last one called what runs. */
  #level = 0;
  #registries = 0;

  /** An agent begins after some steps of the script, and after some commands of the agent around it. */
  constructor(world, name, begun, begunAfter) {
    Object.assign(this, { world, name, begun, begunAfter });
    this.writer = new Writer(world.found.answers.get(name));
    this.realm = installAll(this);
  }

  // Tasks

  /** Something is to be done in a job of its own, where a timer calls a function (`callee`). An interval is set again (`isAgain`)
      after its call, or after what comes of that; in node it counts from the call's beginning. */
  schedule(node, delay, act, { queue = null, wait = 0, isAgain = false, ...more } = {}) {
    const order = (this.#order += 1);
    const place = placeOf({ queue, wait, from: isAgain ? this.#begun : order, level: this.#level }, this.tasks);
    const task = { node, time: this.now + delay, order, latest: isAgain ? null : order, act, ...place, ...more };
    this.tasks.push(task);
    return task;
  }

  /** What an interval's call led to is set: so the interval is, in every engine. */
  #settle() {
    for (const task of this.tasks) task.latest ??= (this.#order += 1);
  }

  cancel(task) {
    if (this.tasks.includes(task)) this.tasks.splice(this.tasks.indexOf(task), 1);
  }

  next() {
    const [first] = [...this.tasks].sort((one, other) => one.time - other.time || one.order - other.order);
    return first ?? null;
  }

  /** Something goes on in the same job, with values that are held until then: by the temporaries of `cx` that hold them, or by
      copies. */
  enqueue(cx, node, values, act) {
    const { writer } = this;
    const carried = [];
    const held = [];
    for (const value of values) {
      if (isInPlan(value) || writer.teller(value) !== null) this.#carry(cx, node, value, carried);
      else if (hasIdentity(value)) held.push(new Held(node, writer, "waiting", value, carried));
    }
    this.microtasks.push({ node, act, carried, held });
  }

  #carry({ temporaries, returned }, node, value, carried) {
    const { writer } = this;
    const teller = writer.teller(value);
    for (const list of [temporaries, returned]) {
      const place = list.findIndex(({ name }) => (teller ? name === teller : writer.machine.value(name) === planned(value)));
      if (place >= 0) {
        carried.push(...list.splice(place, 1));
        return;
      }
    }
    if (teller !== null) return;
    const [name] = planned(value).variables;
    if (name === undefined) writer.operand(node, value, carried);
    else writer.do(node, ["copy", writer.temporary(carried), name], undefined, { temporary: true });
  }

  // Jobs

  /** Makes one move: a whole job, a skip, the end, or the rest of a job after a sleep. Where the agent falls asleep its move ends. */
  move() {
    this.#rest ??= this.#moves();
    if (this.#rest.next().done) this.#rest = null;
  }

  *#moves() {
    const task = this.next();
    if (task === null) {
      this.hasEnded = true;
      return;
    }
    if (this.jobs.length === MOST_JOBS) throw new ScriptFault(TOO_MANY_JOBS, task.node);
    this.cancel(task);
    this.now = Math.max(this.now, task.time);
    const job = { run: new Run(), task, unsure: this.tasks.filter((other) => !comesFirst(task, other)) };
    this.jobs.push(job);
    this.writer.uses.job = this.jobs.length;
    this.#level = task.level;
    this.#begun = this.#order;
    if (task.sender) job.on = [task.sender, null];
    if (task.sender && this.world.port(task.sender, this.name).length === 0) this.#skip(task, job);
    else yield* this.#run(task, job);
  }

  #skip({ node }, job) {
    this.writer.beginJob(job.run);
    job.on[1] = this.writer.temporary([]);
    job.node = node;
  }

  *#run(task, job) {
    const { writer } = this;
    writer.beginJob(job.run);
    const cx = new Context(this, null);
    if (task.sender) {
      const message = this.world.port(task.sender, this.name).shift();
      job.on[1] = writer.receive(job, this.world.received(this, message), cx.temporaries);
      task.received(cx, writer.machine.value(job.on[1]));
    } else yield* this.attempt(task.node, cx, task.act);
    yield* this.#drain();
    this.#settle();
    writer.endTemporaries(task.node, cx.temporaries);
    this.#sayRejected(cx);
    writer.machine.endJob();
    yield* this.#clean();
  }

  /** Does something of the host's. What it throws nobody catches. */
  *attempt(node, cx, act) {
    try {
      yield* running(act(cx));
    } catch (error) {
      if (!(error instanceof Thrown)) throw error;
      this.uncaught(cx, error);
    }
    this.writer.endTemporaries(node, cx.temporaries);
  }

  /** Runs a body as a coroutine, whose errors nobody catches. */
  *begin(cx, body, scope) {
    const inner = new Context(this, scope), { agent } = inner;
    yield* proceed(cx, new Coroutine(body(inner)), { *ended() {}, *failed(thrown) { agent.uncaught(inner, thrown); } });
  }

  uncaught(cx, thrown) {
    if (!this.writer.hasRefused) this.#say(cx, thrown.node, "Uncaught ", thrown.value);
    thrown.held?.end(thrown.node, this.writer);
  }

  #say(cx, node, word, value) {
    this.realm.sayText(cx, node, word + this.realm.textOfError(value));
  }

  /** Whether more of the script comes in the job that runs, whatever is thrown now. */
  get goesOn() {
    return this.microtasks.length > 0 || this.rejected.size > 0;
  }

  #sayRejected(cx) {
    for (const { promise, node } of this.rejected) {
      if (!promise.isHandled) this.#say(cx, node, promise.isBody ? "Uncaught " : "Uncaught (in promise) ", promise.value);
    }
    this.rejected.clear();
  }

  *#drain() {
    while (this.microtasks.length > 0) {
      const { node, act, carried, held } = this.microtasks.shift();
      const cx = Object.assign(new Context(this, null), { guards: 1, temporaries: carried });
      yield* this.attempt(node, cx, act);
      for (const one of held) one.end(node, this.writer);
    }
  }

  // Cleanup

  addCallback(wish) {
    let name = nameLike(wish);
    for (let number = 2; this.callbacks.has(name); number += 1) name = `${nameLike(wish)}_${number}`;
    this.callbacks.set(name, null);
    this.lastCallback = name;
    return name;
  }

  addRegistry(thing, callback, node) {
    Object.assign(thing, { callback, node, name: this.lastCallback, index: `${this.name} ${(this.#registries += 1)}`, more: [], uses: 0 });
  }

  /** The plan's FinalizationRegistry for a registration: another one for each, where calls of the callback differ. */
  registryFor(cx, node, registry) {
    if (!this.world.found.split.has(registry.index) || (registry.uses += 1) === 1) return registry;
    const more = cx.make(node, new Thing("registry", registry.proto), ["registry", this.addCallback(registry.name)]);
    Object.assign(more, { callback: registry.callback, node: registry.node, name: this.lastCallback, index: registry.index });
    cx.writer.hold(node, registry, `registration_${registry.uses}`, more, cx.temporaries);
    registry.more.push(more);
    return more;
  }

  *#clean() {
    const { machine } = this.writer;
    this.isCleaning = this.writer.uses.isCleaning = true;
    while (machine.queue.length > 0) {
      const registry = machine.queue.shift();
      for (let cell = machine.due(registry), goesOn = true; cell && goesOn; cell = machine.due(registry)) {
        goesOn = yield* this.#call(registry, cell);
      }
      machine.keptAlive.clear();
      if (machine.due(registry)) machine.queue.push(registry);
    }
    this.isCleaning = this.writer.uses.isCleaning = false;
  }

  /** Calls a callback. Its commands are the same at each call, or each registration gets a registry of its own. */
  *#call(registry, cell) {
    const { writer } = this;
    writer.machine.take(cell);
    const run = new Run();
    const end = writer.apart(run);
    const cx = new Context(this, null);
    const place = registry.node;
    if (!hasIdentity(cell.held)) writer.tell(cell.held, "held");
    yield* this.attempt(place, cx, (inner) => this.realm.invoke(inner, place, registry.callback, undefined, [cell.held]));
    yield* this.#drain();
    this.#sayRejected(cx);
    if (!writer.hasRefused) writer.clear(place, "held", { temporary: true });
    const { hasRefused } = writer;
    writer.hasRefused = false;
    end();
    const known = this.callbacks.get(registry.name);
    if (known !== null && written(known) !== written(run)) throw this.#differs(registry);
    this.callbacks.set(registry.name, run);
    return !hasRefused;
  }

  #differs({ index, node }) {
    if (this.world.found.split.has(index)) {
      throw new ScriptFault("a callback of a plan does the same each time that it is called", node);
    }
    this.world.found.split.add(index);
    return new Again(`the callback of ${index} differs`);
  }
}
