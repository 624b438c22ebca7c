// An agent's thread of the host workers.mjs. It runs an agent of one plan after the other.
import { readFileSync } from "node:fs";
import { runInThisContext } from "node:vm";
import { parentPort, receiveMessageOnPort, workerData } from "node:worker_threads";
import "./words.js";
import "./thread.js";

const { DOES, ENDED, FAILED, own } = ThreadWords;
const { place, scripts, how, memory } = workerData, words = new Int32Array(memory);
const ports = new Map(); // to the other agents, by place
const task = () => new Promise((go) => setImmediate(go));
const host = {
  collect: () => globalThis.gc(),
  task,
  wait: async () => { for (let turns = 0; turns < 4; turns += 1) await task(); },
};

// Tells the main thread of an error, which it cannot hear of as long as it waits by words.
function fail(e) {
  console.error(e);
  own.store(words, FAILED, 1);
  throw e;
}
try {
  for (const filename of scripts) runInThisContext(readFileSync(filename, "utf8"), { filename });
} catch (e) {
  fail(e);
}
process.on("uncaughtException", (e) => { if (!(e instanceof Plans.Refused)) throw e; });

const link = {
  next: (sender) => receiveMessageOnPort(ports.get(sender))?.message,
  post: (receiver, message) => ports.get(receiver).postMessage(message),
};
const { Thread, next } = threadOf({ place, how, words, link, host });

// What can be posted says the engine, but for what structured clone would copy, or would lose.
class Cloning extends Thread {
  message(value) {
    const isSymbolOfKey = typeof value === "symbol" && Symbol.keyFor(value) !== undefined;
    const isThing = typeof value === "object" && Object.getPrototypeOf(value)?.constructor?.name === "Thing";
    return isSymbolOfKey || isThing || value instanceof SharedArrayBuffer ? super.message(value) : { value };
  }
  named(e, c) { return e?.name === "DataCloneError" ? "DataCloneError: value cannot be posted" : super.named(e, c); }
}

let agent;
// What the main thread sends: a port to another agent; a plan to be run; or that what is left in the ports be taken out.
parentPort.on("message", async ({ port, other, plan, names }) => {
  if (port) {
    ports.set(other, port);
  } else if (plan) {
    agent = new Cloning(plan, names);
    await agent.runAll().catch(fail);
    own.store(words, DOES + place, ENDED);
    own.notify(words, DOES + place);
    parentPort.postMessage("ended");
  } else {
    for (const sender of ports.keys()) while (next(sender) !== undefined);
    parentPort.postMessage(agent.out);
  }
});
