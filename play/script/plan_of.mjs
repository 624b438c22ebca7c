// A script in JavaScript to a plan: what the script does to objects, to weak things, blocks and messages becomes commands. See
// docs/SCRIPTS.md for what is taken.

import { scopesOf } from "./analysis.mjs";
import { Run } from "./commands.mjs";
import { confirm } from "./confirming.mjs";
import { Again, ScriptFault, broken } from "./faults.mjs";
import { treeOf } from "./parsing.mjs";
import { World } from "./world.mjs";

const MOST_RUNS = 1000;
const TOO_DEEP = "something is nested too deeply in this script: the interpreter has no room for it";

/** Runs the script until nothing new is found out. */
function worldOf(source, program, scopes, found) {
  for (let runs = 0; runs < MOST_RUNS; runs += 1) {
    const world = new World({ source, program, scopes, found });
    try {
      world.run();
      return { world, fault: null };
    } catch (reason) {
      if (reason instanceof RangeError && /call stack/.test(reason.message)) return { world, fault: new ScriptFault(TOO_DEEP, program) };
      if (!(reason instanceof Again)) return { world, fault: reason };
    }
  }
  throw broken("it finds no end");
}

/** The agents of the plan. The one of what stands outside of all agents is left out where it does nothing. */
function planned(world) {
  const [main, ...others] = world.agents;
  const isIdle = others.length > 0 && main.jobs.every(({ on, run }) => !on && run.commands.length === 0) && world.isUnknown("main");
  return isIdle ? others : world.agents;
}

const jobOf = ({ on, run }) => ({ ...(on ? { on } : {}), run: run.commands });
/** What each callback gives, by name. One that was never called has no commands. */
const each = (callbacks, give) => Object.fromEntries([...callbacks].map(([name, run]) => [name, give(run ?? new Run())]));

function planFor(world, agents) {
  return {
    version: world.version,
    agents: agents.map(({ name, callbacks, jobs }) => ({
      name, callbacks: each(callbacks, ({ commands }) => commands), jobs: jobs.map(jobOf),
    })),
  };
}

const placesFor = (agents) => agents.map(({ name, callbacks, jobs }) => ({
  name, callbacks: each(callbacks, ({ places }) => places), jobs: jobs.map(({ run }) => run.places),
}));

/** What calls a job, and the function of the script that it calls. */
const callOf = ({ order, callee }) => ({ task: order, callee: callee?.node ? { start: callee.node.start, end: callee.node.end } : null });

const usesFor = ({ common }, agents) => agents.map((agent) => ({
  name: agent.name, begunAfter: agent.begunAfter, uses: agent.writer.uses.told((thing) => common.numberOf(thing, agent)),
  calls: agent.jobs.map(({ task, unsure }) => ({ ...callOf(task), unsure: unsure.map(callOf) })),
}));

/** A plan's text with a command on each line. */
function textOf({ version, agents }) {
  const list = (lines, indent) => (lines.length === 0 ? "[]" : `[\n${lines.map((line) => `${indent} ${line}`).join(",\n")}]`);
  const run = (commands, indent) => list(commands.map((one) => `[${one.map((word) => JSON.stringify(word)).join(", ")}]`), indent);
  const head = (on) => (on ? `"on": ${JSON.stringify(on).replace(",", ", ")}, ` : "");
  const job = ({ on, run: commands }) => `{${head(on)}"run": ${run(commands, "    ")}}`;
  const callback = ([name, commands]) => `    ${JSON.stringify(name)}: ${run(commands, "     ")}`;
  const agent = ({ name, callbacks, jobs }) => {
    const all = Object.entries(callbacks);
    const written = all.length === 0 ? "{}" : `{\n${all.map(callback).join(",\n")}}`;
    return `{"name": ${JSON.stringify(name)},\n   "callbacks": ${written},\n   "jobs": ${list(jobs.map(job), "   ")}}`;
  };
  return `{"version": ${version},\n "agents": ${list(agents.map(agent), " ")}}\n`;
}

/** The plan of a script. `engine` has the calls of clusterrun.mjs: it says what each collection empties. */
export function planOf(source, { engine }) {
  const program = treeOf(source);
  const scopes = scopesOf(program);
  const found = { answers: new Map(), split: new Set() };
  for (let runs = 0; runs < MOST_RUNS; runs += 1) {
    const { world, fault } = worldOf(source, program, scopes, found);
    const agents = planned(world);
    const plan = planFor(world, agents);
    const text = textOf(plan);
    const { status, text: traced } = engine.trace(text);
    if (status === 3) throw new ScriptFault("the plan of this script needs more memory than there is", program);
    if (status !== 0) throw fault ?? broken(`the engine says ${traced} of its plan`);
    // A fault may come of a wrong guess: so what came before it is compared too.
    const other = confirm(traced, agents, fault !== null);
    if (other !== null) answer(found.answers, other);
    else if (fault !== null) throw fault;
    else return { plan, text, places: placesFor(agents), uses: usesFor(world, agents), trace: traced };
  }
  throw broken("the engine's answers lead to no plan");
}

/** From now on a collection empties what the engine says. */
function answer(answers, { agent, collection, identities }) {
  if (!answers.has(agent)) answers.set(agent, []);
  answers.get(agent)[collection] = identities;
}

export { ScriptFault };
