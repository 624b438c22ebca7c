// The host in which each agent is a thread of node's own:
// node --expose-gc workers.mjs --turns HOW [--seed S] [SCRIPT ..] plan.js < plans
// HOW says who goes on when. `job`: the first agent that can move moves, by a whole job, as in plan.js's Cluster.
// `command`: each command, and each beginning and end of a job, takes a turn, and whose it is is drawn. The turns stand in
// the answer, as `order`: the agent's place, the number of the job, and that of the command, 0 for the job's beginning;
// a command of a callback has [place, 0, 0]. `none`: all agents go at once.
//
// The main thread gives the turns by words of a block of its own, on which agents wait. What is posted goes straight from
// one agent to the other, through a port of the engine's, as the variable holds it: what cannot be cloned the engine
// refuses itself. Two kinds are the interpreter's to decide: an object that `new` made, which structured clone would copy
// though a plan refuses it, and a registered symbol, which goes by its key.
import { readFileSync } from "node:fs";
import { MessageChannel, Worker } from "node:worker_threads";
import "./threads/words.js";
import "./threads/turns.js";

const { FAILED, WORDS } = ThreadWords;
const SLICE = 50, LOOK = 5; // milliseconds: for a thread to tell of an error; between looks at agents that go at once
const scripts = process.argv.slice(2);
const option = (name) => scripts.includes(name) ? scripts.splice(scripts.indexOf(name), 2)[1] : undefined;
const how = option("--turns"), words = new Int32Array(new SharedArrayBuffer(4 * WORDS)), threads = [];
const { byTurns, unlock, accounts, lacking } = turnsOf({ how, words, seed: Number(option("--seed") ?? 1) });

// The thread for agents of a place, with ports to those of the places before it.
function threadOf(place) {
  if (threads[place] !== undefined) return threads[place];
  const workerData = { place, scripts, how, memory: words.buffer };
  const worker = new Worker(new URL("threads/agent.mjs", import.meta.url), { workerData });
  worker.on("error", (e) => { console.error(e); process.exit(1); });
  for (const [other, { worker: otherWorker }] of threads.entries()) {
    const { port1, port2 } = new MessageChannel();
    worker.postMessage({ port: port1, other }, [port1]);
    otherWorker.postMessage({ port: port2, other: place }, [port2]);
  }
  const heard = [], hearing = [];
  worker.on("message", (said) => { heard.push(said); hearing.shift()?.(); });
  const hear = async () => {
    if (heard.length === 0) await new Promise((go) => hearing.push(go));
    return heard.shift();
  };
  return threads[place] = { worker, hear };
}

async function answer({ agents }) {
  const skipped = lacking(agents);
  if (skipped) return { skipped };
  const names = agents.map(({ name }) => name), places = [...agents.keys()], all = places.map(threadOf);
  words.fill(0, 0, FAILED);
  all.forEach(({ worker }, place) => worker.postMessage({ plan: agents[place], names }));
  const order = how === "none" ? undefined : byTurns(places), watch = setInterval(unlock, LOOK, places);
  await Promise.all(all.map(({ hear }) => hear()));
  clearInterval(watch);
  const out = [];
  for (const { worker, hear } of all) {
    worker.postMessage({});
    out.push(await hear());
  }
  places.forEach((place) => out[place].push(...accounts(names, place)));
  return how === "command" ? { agents: out, order } : { agents: out };
}

try {
  const lines = readFileSync(0, "utf8").split("\n").filter((line) => line !== "");
  for (const line of lines) console.log(JSON.stringify(await answer(JSON.parse(line))));
  process.exit(0);
} catch (e) {
  await new Promise((go) => setTimeout(go, SLICE)); // what an agent writes goes through this thread
  console.error(e);
  process.exit(1);
}
