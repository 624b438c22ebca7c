// What the rest of a script can come to without asking a WeakRef, at each moment of its run: what a variable holds that will be
// read, and what that leads to. All else an engine may let go of.

import { distances } from "./graph.mjs";
import { identityOf } from "./replay.mjs";

export class Used {
  #commands = 0;
  #next = 0;
  /** By their numbers: what variables hold now, under which name, and whether that will be read. */
  #variables = new Map();
  /** The variables that a function may read, by the function's number. */
  #captured = new Map();

  /** A variable of some names is doubtful: an engine may choose what it holds. What a loose job reads it may have read before. */
  constructor(uses, isDoubtful, isLoose) {
    this.uses = withNext(uses.filter(({ job }) => job === undefined || !isLoose(job)));
    this.isDoubtful = isDoubtful;
    this.holds = (heap, identity) => this.#heldBy(heap, identity);
  }

  /** Takes over what comes before the next command. */
  command() {
    for (; this.uses[this.#next]?.at <= this.#commands; this.#next += 1) this.#apply(this.uses[this.#next]);
    this.#commands += 1;
  }

  #apply({ variable, variables, callee, name, identity, isRead, willBeRead }) {
    if (callee !== undefined) this.#captured.set(callee, [...(this.#captured.get(callee) ?? []), ...variables]);
    else if (!isRead) this.#variables.set(variable, { name, identity, willBeRead });
    else if (this.#variables.has(variable)) this.#variables.get(variable).willBeRead = willBeRead;
    const now = this.#variables.get(variable);
    if (now && (now.identity === null || (now.name === null && !now.willBeRead))) this.#variables.delete(variable);
  }

  /** Whether a value is reached from some others, or from what will be read. */
  reaches(heap, identity, others) {
    const from = [...this.#variables.values()].filter((one) => one.willBeRead && !this.isDoubtful(one.name));
    return this.#leads(heap, [...from.map((one) => one.identity), ...others], identity);
  }

  /** The name of a variable that leads to a value, though nothing reads it any more: "" where only several together do, and null
      where none do. */
  unread(heap, identity) {
    const named = [...this.#variables.values()].filter(({ name }) => name !== null && !this.isDoubtful(name));
    if (!this.#leads(heap, named.map((one) => one.identity), identity)) return null;
    const found = named.findLast((one) => !one.willBeRead && this.#leads(heap, [one.identity], identity));
    return found?.name ?? "";
  }

  /** What a variable surely holds now; null of what is none of these. */
  #now(variable) {
    const found = this.#variables.get(variable);
    return found && !this.isDoubtful(found.name) ? found.identity : null;
  }

  #leads(heap, from, identity) {
    return from.includes(identity) || distances(heap, from, this.holds).has(identity);
  }

  /** What a value holds by itself. A function has what it may read of its scopes, and a FinalizationRegistry the held values. */
  #heldBy(heap, identity) {
    const { kind, properties } = heap.things.get(identity);
    const captured = this.#captured.get(identity);
    const held = [...properties].filter(([key]) => !captured || key !== SCOPE).map(([, value]) => identityOf(value));
    if (captured) held.push(...captured.map((one) => this.#now(one)));
    if (kind !== "FinalizationRegistry") return held;
    const cells = [...heap.registrations.values()].filter(({ registry }) => registry === identity);
    return [...held, ...cells.map((cell) => identityOf(cell.held))];
  }
}

/** What a function of a plan holds of its scopes, as an environment record does: more than what it may read. */
const SCOPE = "scope";

/** Each use with whether the variable's next one is a read: else nothing comes of what it holds. */
function withNext(uses) {
  const next = new Map();
  return uses.toReversed().map((use) => {
    if (use.callee !== undefined) return use;
    const willBeRead = next.get(use.variable) ?? false;
    next.set(use.variable, Boolean(use.isRead));
    return { ...use, willBeRead };
  }).reverse();
}
