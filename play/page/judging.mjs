// Which lines of a script every engine has to print, and which ones hang on what an engine may choose: when it collects, when it
// calls the callbacks of a FinalizationRegistry, and when an agent sleeps and wakes. docs/PAGE.md has the criterion.

import { givesWord } from "../script/commands.mjs";
import { placed } from "../script/lines.mjs";
import { orderOf } from "./calls.mjs";
import { Effects } from "./effects.mjs";
import { Heap, identityOf } from "./replay.mjs";
import { statementAt } from "./statements.mjs";
import { Used } from "./used.mjs";

const REASONS = {
  callback: "An engine calls this callback when it likes, or never.",
  deref: "An engine may collect sooner or later, or never.",
  unread: (name) => `Nothing that runs later reads ${name ? `what '${name}' holds` : "the variables that lead to it"}, so an engine may let go of it.`,
  timer: "A timer may come later than its time.",
  sleep: "Another agent may come sooner or later, or a time-out may pass before.",
  after: (why) => `What came before may be otherwise in another engine. ${why}`,
};

/** The lines, each with the number of its event in the trace, and with why it may be otherwise (`may`), or null; and whether
    anything in the run may be otherwise (`hasChosen`). */
export function judged(lines, trace, { places, uses, statements }) {
  const judge = new Judge(places, uses, statements);
  const found = [];
  let number = 0;
  for (const { line, place } of placed(trace, places)) {
    const may = judge.see(line, place);
    if (line.event === "refused" || (line.event === "did" && place?.say?.closes)) found.push({ ...lines[found.length], event: number, may });
    if (line.event !== "kept") number += 1;
  }
  return { lines: found, hasChosen: judge.hasChosen };
}

class Judge {
  constructor(places, uses, statements) {
    this.statements = statements;
    this.agents = new Map(uses.map((one) => [one.name, new Agent(one, new Effects(statements))]));
    this.main = this.agents.get("main") ?? null;
  }

  /** Takes over an event, and says why a line that it ends may be otherwise; null where it may not. */
  see(line, place) {
    const agent = this.agents.get(line.agent);
    if (!agent) return null;
    if (line.command) agent.count();
    if (line.event === "job") agent.beginJob(line.job);
    if (this.main !== null && agent !== this.main) agent.takeOver(this.main);
    const reason = agent.effects.isAll ? null : (agent.chooses(line) ?? (this.comes(line) ? REASONS.deref : null));
    const statement = place && statementAt(this.statements, place);
    if (reason !== null) agent.effects.choose(statement?.node ?? null, reason);
    agent.apply(line, statement);
    agent.note();
    if (!place) return null;
    if (agent.isCleaning) return REASONS.callback;
    if (agent.isLoose) return REASONS.timer;
    return agent.effects.reasonAt(place) ?? (agent.effects.isAll ? REASONS.after(agent.effects.ofAll) : null);
  }

  /** Whether an engine may choose anything: what is asked for, or whether a callback comes. */
  get hasChosen() {
    return [...this.agents.values()].some(({ effects, heap, order }) => (
      effects.hasChosen || effects.nodes.size > 0 || heap.registered > 0 || order.some(({ isLoose }) => isLoose)));
  }

  /** Whether something comes from another agent for which something was chosen. */
  comes({ agent, event, command }) {
    if (event !== "message" && !(command && givesWord(command))) return false;
    return [...this.agents].some(([name, { effects }]) => name !== agent && effects.hasChosen);
  }
}

/** An agent as far as it has run. */
class Agent {
  constructor({ uses, calls, begunAfter }, effects) {
    Object.assign(this, { effects, begunAfter, order: orderOf(calls, effects) });
    this.heap = new Heap({ jobs: calls.map(() => ({ on: ["", ""] })) });
    this.used = new Used(uses, (name) => effects.names.has(name), (job) => this.order[job - 1].isLoose);
    this.isCleaning = false;
    /** Whether another engine may have begun the job that runs before, or may begin it later. */
    this.isLoose = false;
    this.commands = 0;
    /** After how many commands all that follows hangs on a choice. */
    this.allAfter = Infinity;
    /** What KeptAlive has in every engine: not what a deref gave that may give nothing. */
    this.keptAlive = new Set();
    /** Where FinalizationRegistries were made in the job that runs: no callback is called before its end. */
    this.made = [];
    /** The tokens of registrations that were taken, with the numbers of their registries. */
    this.taken = new Set();
  }

  count() {
    this.commands += 1;
    this.used.command();
  }

  note() {
    if (this.effects.isAll) this.allAfter = Math.min(this.allAfter, this.commands);
  }

  beginJob(job) {
    const { isLoose, isSure, begins } = this.order[job - 1];
    this.isLoose = isLoose;
    for (const callee of begins) this.effects.beginCall(this.effects.functionAt(callee), REASONS.timer);
    if (!isSure) this.effects.ofAll ??= REASONS.timer;
  }

  /** What was chosen for the agent around this one: whether this one was begun, and in variables that this one may read. */
  takeOver({ effects, allAfter }) {
    if (allAfter <= this.begunAfter) this.effects.ofAll ??= effects.ofAll;
    for (const [name, reason] of effects.names) this.effects.nameIsChosen(name, reason);
  }

  /** Why an engine may choose what a command asks for: it was emptied, or may be at any time; or it hangs on which agent comes
      first. Null where it may not. */
  chooses({ event, command, values }) {
    if (event !== "did") return null;
    if (command[0] === "wait" || command[0] === "notify") return REASONS.sleep;
    if (command[0] === "deref") return this.asks(this.heap.things.get(identityOf(values[0])).target);
    if (command[0] !== "unregister") return null;
    const [registry, token] = values.map(identityOf);
    if (this.taken.has(`${registry} ${token}`)) return REASONS.deref;
    const cells = [...this.heap.registrations.values()].filter((cell) => cell.registry === registry && cell.token === token);
    return cells.map(({ target }) => this.mayBeGone(target, [token])).find((reason) => reason !== null) ?? null;
  }

  /** Why what a WeakRef is asked for may be gone; null where it may not: then it is kept alive. */
  asks(target) {
    const reason = this.mayBeGone(target, []);
    if (reason === null) this.keptAlive.add(target);
    return reason;
  }

  /** Why a target may be gone; null where it may not, as where the command has what leads to it. */
  mayBeGone(target, had) {
    if (target === null) return REASONS.deref;
    if (this.used.reaches(this.heap, target, [...this.keptAlive, ...had])) return null;
    const name = this.used.unread(this.heap, target);
    return name === null ? REASONS.deref : REASONS.unread(name);
  }

  apply(line, statement) {
    if (line.event === "cleanup job") this.isCleaning = true;
    if (line.event === "job ends") this.endJob();
    if (line.event === "did" && line.command[0] === "registry") this.made.push(statement?.node ?? null);
    if (line.event === "did" && line.command[0] === "weakref") this.keptAlive.add(identityOf(line.values[0]));
    if (line.event === "taken") this.take(line);
    this.heap.apply(line);
  }

  endJob() {
    this.isCleaning = this.isLoose = false;
    this.keptAlive.clear();
    for (const node of this.made.splice(0)) this.effects.begin(node, REASONS.deref);
  }

  take({ registration }) {
    const { registry, token } = this.heap.registrations.get(registration);
    if (token !== null) this.taken.add(`${registry} ${token}`);
  }
}
