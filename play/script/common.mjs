// Functions and classes that stand outside of the agents, and that agents use. Each agent has objects of its own for them in the
// plan, as if it had read the script itself: so while an agent runs, they have the numbers that it gave to them, and what it alone
// knows of them.

import { Held } from "./bindings.mjs";
import { Thing, isThing } from "./values.mjs";

const WHOLE = { start: 0, end: 0 };

/** What an agent's plan has of a thing. */
const stateOf = ({ number, isEmptied, edges, variables, holders, withheld }) => ({ number, isEmptied, edges, variables, holders, withheld });
const newState = () => ({ number: 0, isEmptied: false, edges: new Map(), variables: new Set(), holders: new Set(), withheld: undefined });

/** A function of an agent's own, which is called as another one is. */
export const ownFunction = (callee) => Object.assign(new Thing("function", callee.proto), callee, newState());

/** What a function or a prototype leads to. */
function* leadsTo(thing) {
  if (thing.isBuiltIn) return;
  thing.complete?.("prototype");
  for (const { value, get, set } of thing.properties.values()) yield* [value, get, set];
  yield* [thing.proto, thing.home, ...thing.edges.values(), ...(thing.withheld?.values() ?? [])];
  if (thing.isArrow) yield thing.self.value;
}

const isFunction = (thing) => thing.kind === "function" && !(thing.native && thing.isConstructor);

/** A function with all functions and prototypes that it leads to; null if it leads to other objects. */
function codeOf(callee) {
  const found = new Set([callee]);
  for (const thing of found) {
    for (const next of leadsTo(thing)) if (isThing(next) && !next.isBuiltIn) found.add(next);
  }
  const prototypes = new Set([...found].flatMap((thing) => [thing.home, thing.properties.get("prototype")?.value]));
  return [...found].every((thing) => isFunction(thing) || prototypes.has(thing)) ? found : null;
}

/** The map of an agent, in a map. */
function mapOf(maps, agent) {
  if (!maps.has(agent)) maps.set(agent, new Map());
  return maps.get(agent);
}

export class Common {
  #things = new Set();
  /** By agents and things: what the agent's plan has of the thing, and what holds it there. */
  #states = new Map();
  #holding = new Map();
  #current = null;

  /** From now on an agent runs. */
  enter(agent) {
    for (const thing of agent === this.#current ? [] : this.#things) this.#turn(thing, agent);
    this.#current = agent;
  }

  /** The agent that runs uses a function of another one. Says whether it may. */
  use(callee, maker) {
    if (this.#things.has(callee)) return true;
    const agent = this.#current;
    const code = codeOf(callee);
    if (code === null) return false;
    this.#current = maker;
    for (const thing of code) {
      if (this.#things.has(thing)) continue;
      this.#things.add(thing);
      this.#turn(thing, agent);
    }
    this.#current = agent;
    return true;
  }

  /** The agent that runs reads a variable of another one. */
  read(thing) {
    mapOf(this.#holding, this.#current).get(thing)?.use(this.#current.writer);
  }

  /** The number of a thing in an agent's plan. */
  numberOf(thing, agent) {
    const isCurrent = agent === this.#current || !this.#things.has(thing);
    return isCurrent ? thing.number : (mapOf(this.#states, agent).get(thing)?.number ?? 0);
  }

  /** A thing is from now on as an agent knows it. What an agent has of it, it holds to its end. */
  #turn(thing, agent) {
    mapOf(this.#states, this.#current).set(thing, stateOf(thing));
    const known = mapOf(this.#states, agent).get(thing);
    Object.assign(thing, known ?? newState());
    if (known !== undefined) return;
    const held = new Held(WHOLE, agent.writer, thing.properties.get("name")?.value || "prototype", thing, []);
    mapOf(this.#holding, agent).set(thing, held);
  }
}
