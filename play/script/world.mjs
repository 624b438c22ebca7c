// The agents of a script, which take turns as those of a plan do, and the messages between them.

import { Scope } from "./bindings.mjs";
import { Common } from "./common.mjs";
import { Agent } from "./jobs.mjs";
import { statements } from "./statements.mjs";
import { Thing } from "./values.mjs";

export class World {
  agents = [];
  steps = 0;
  version = 1;
  /** The symbols of `Symbol.for`, which all agents have in common. */
  registered = new Map();
  common = new Common();
  #ports = new Map();
  #sleeps = 0;

  /** `found` is what earlier runs of the same script found out. */
  constructor({ source, program, scopes, found }) {
    Object.assign(this, { source, program, scopes, found });
    const main = this.add("main");
    const { program: node } = this;
    main.schedule(node, 0, function* (cx) {
      yield* main.begin(cx, function* (inner) {
        inner.scope.begin(node, inner.writer);
        yield* statements(node.body, inner);
      }, new Scope(null, main, scopes.get(node)));
    });
  }

  add(name) {
    const agent = new Agent(this, name, this.steps, this.find("main")?.writer.uses.commands ?? 0);
    this.agents.push(agent);
    return agent;
  }

  /** What the script does asks for a version of the format. */
  needVersion(version) {
    this.version = Math.max(this.version, version);
  }

  find(name) {
    return this.agents.find((agent) => agent.name === name) ?? null;
  }

  /** Whether no agent posts to one of this name, or waits for its messages. */
  isUnknown(name) {
    return ![...this.#ports.keys()].some((pair) => pair.split(" ").includes(name));
  }

  port(sender, receiver) {
    const name = `${sender} ${receiver}`;
    if (!this.#ports.has(name)) this.#ports.set(name, []);
    return this.#ports.get(name);
  }

  /** A message as its receiver gets it: a shared buffer is another object over the same block. */
  received(agent, message) {
    if (message?.kind !== "buffer") return message;
    return Object.assign(new Thing("buffer", agent.realm.protos.buffer), { block: message.block });
  }

  /** An agent goes to sleep at a word of a block, as the last that sleeps there. */
  sleep(agent, block, index) {
    agent.sleep = { block, index, order: (this.#sleeps += 1), answer: null };
  }

  /** Wakes the first that sleep at a word, so many at most. Gives how many they were. */
  notify(block, index, most) {
    const sleeping = this.agents.map(({ sleep }) => sleep).filter((sleep) => sleep?.block === block && sleep.index === index && !sleep.answer);
    const taken = sleeping.sort((one, other) => one.order - other.order).slice(0, most);
    for (const sleep of taken) sleep.answer = "ok";
    return taken.length;
  }

  #stays(agent) {
    if (agent.sleep) return agent.sleep.answer === null;
    const task = agent.next();
    if (!task?.sender || this.port(task.sender, agent.name).length > 0) return false;
    return !this.find(task.sender).hasEnded;
  }

  /** Lets the agents take turns until all have ended. Where all stay, the first skips its job, or its sleep times out. */
  run() {
    for (;;) {
      const going = this.agents.filter(({ hasEnded }) => !hasEnded);
      if (going.length === 0) return;
      const next = going.find((agent) => !this.#stays(agent)) ?? going[0];
      if (next.sleep) next.sleep.answer ??= "timed-out";
      this.common.enter(next);
      next.move();
    }
  }
}
