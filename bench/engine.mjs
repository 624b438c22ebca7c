// Runs a plan on node's own objects, WeakRefs, WeakMaps, WeakSets, FinalizationRegistries and full collections, by the
// interpreter engines/plan.js, and prints the report, but for the lines `emptied N`, since no engine tells how many
// values a collection took. Each job is a task of its own, so that what a job keeps alive can go after it; after it the
// engine has time to call the callbacks of FinalizationRegistries, in its own order, until it calls none. No engine tells
// what became of the other registrations either: in the line `end` each unregister that found one counts as one, as it
// is where no two registrations share a token. The plan must be one without a fault: of faults only the words are looked
// at.
// Where agents post or wait, each has a worker thread of its own, each pair of them a MessageChannel, and blocks are
// SharedArrayBuffers; else all run in this thread, one after the other. The threads take no turns: the report is the
// program's only where it is the same for each order of what they do. No job is skipped: where a job waits for a message
// that never comes, so does this engine. A block counts as released at the end, as each is then.
// Usage: node --expose-gc engine.mjs run|check FILE
import { readFileSync } from "node:fs";
import { runInThisContext } from "node:vm";
import { MessageChannel, Worker, isMainThread, parentPort, workerData } from "node:worker_threads";

const interpreter = new URL("../engines/plan.js", import.meta.url);
runInThisContext(readFileSync(interpreter, "utf8"), { filename: interpreter.pathname });
const { Agent, Refused, hasMessages, runsOf } = Plans;
// Out of a callback that the engine calls.
process.on("uncaughtException", (e) => { if (!(e instanceof Refused)) throw e; });

// How many operands each command has; a later collection is no engine's.
const commands = JSON.parse(readFileSync(new URL("../tests/rows/commands.json", import.meta.url), "utf8"));
const operands = Object.fromEntries(
  Object.entries(commands).filter(([, row]) => !row.since).map(([word, row]) => [word, row.operands.length]));
const task = () => new Promise((go) => setImmediate(go));
const wait = async () => {
  await task();
  await task();
};
const host = { collect: () => gc(), task, wait };

// What came from each other agent through its port, by name.
class Mail {
  constructor(ports) {
    this.queues = new Map();
    this.woken = () => {}; // called when a message came
    for (const [name, port] of ports) {
      const queue = [];
      this.queues.set(name, queue);
      port.on("message", (message) => {
        queue.push(message);
        this.woken();
      });
    }
  }
  // The oldest message of an agent, as soon as there is one, in a task of its own: that in which it came, or a new one.
  async next(name) {
    const queue = this.queues.get(name);
    if (queue.length > 0) await task();
    while (queue.length === 0) await new Promise((go) => { this.woken = go; });
    return queue.shift();
  }
}
// Runs the jobs of an agent, with ports to the others, by name, and gives its lines and what it counted.
async function live(plan, place, ports) {
  const agent = new Agent(plan, place, host, { send: (name, message) => ports.get(name).postMessage(message) });
  const mail = new Mail(ports);
  for (const job of plan.jobs) {
    const message = await (job.on ? mail.next(job.on[0]) : task());
    agent.received += job.on ? 1 : 0;
    await agent.runNow(job, message);
  }
  const { out, opened, posted, received } = agent;
  return { lines: [`agent ${plan.name}`, ...out, agent.end()], opened, posted, received };
}
// All in this thread, one after the other.
async function inTurn(agents) {
  const ended = [];
  for (const [place, plan] of agents.entries()) ended.push(await live(plan, place, new Map()));
  return ended;
}
// Each in a thread of its own, with ports to all others.
function inThreads(agents) {
  const ports = agents.map(() => new Map());
  for (const [place, { name }] of agents.entries()) {
    for (let other = 0; other < place; other++) {
      const { port1, port2 } = new MessageChannel();
      ports[place].set(agents[other].name, port1);
      ports[other].set(name, port2);
    }
  }
  return Promise.all(agents.map((agent, place) => new Promise((ended, failed) => {
    const given = { workerData: { agent, place, ports: ports[place] }, transferList: [...ports[place].values()] };
    const worker = new Worker(new URL(import.meta.url), given);
    worker.once("message", ended);
    worker.once("error", failed);
  })));
}
// An agent's thread.
async function thread({ agent, place, ports }) {
  parentPort.postMessage(await live(agent, place, ports));
  for (const port of ports.values()) port.close();
}
function check(agents) {
  const right = ([word, ...rest]) => operands[word] === rest.length - (word === "register" && rest.length === 4);
  return agents.every((agent) => runsOf(agent).every((run) => run.every(right)));
}
async function run(agents) {
  const ended = await (hasMessages(agents) ? inThreads(agents) : inTurn(agents));
  const sum = (count) => ended.reduce((total, agent) => total + agent[count], 0);
  const opened = sum("opened"), posted = sum("posted"), received = sum("received");
  const lines = ended.flatMap((agent) => agent.lines);
  lines.push("cluster", `blocks ${opened} released ${opened}`);
  lines.push(`messages posted ${posted} taken ${received} drained ${posted - received}`);
  return lines;
}
async function main() {
  const { agents } = JSON.parse(readFileSync(process.argv[3], "utf8"));
  const lines = process.argv[2] === "check" ? [check(agents) ? "ok" : "refused"] : await run(agents);
  process.stdout.write(lines.join("\n") + "\n");
}
await (isMainThread ? main() : thread(workerData));
