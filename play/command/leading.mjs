// All that leads to one value of a trace, in rows: after each collection that it outlives, and at its agent's end if none came
// since it was made. The page's model gives it.

import { saidOfAll } from "../page/leading.mjs";
import { Trace } from "../page/replay.mjs";

/** The rows of the value of a number, of each agent that has one; or why there are none, as `error`. */
export function leadingRows(text, plan, identity, isScript) {
  const trace = new Trace(text, plan, { isScript });
  const names = trace.agents.map(({ name }) => name), width = Math.max(...names.map((name) => name.length));
  if (!names.some((name) => trace.heaps.get(name).kinds.has(identity))) return { error: noValue(trace, identity) };
  const found = names.flatMap((agent) => [...momentsOf(trace, agent, identity)].map((line) => `${agent.padEnd(width)}  ${line}\n`));
  return { text: found.join("") };
}

function noValue({ heaps }, identity) {
  const made = [...heaps].map(([name, { kinds }]) => `${name} made ${kinds.size}`);
  return `error: no agent has a value ${identity}: ${made.join(", ")}\n`;
}

/** The lines of one agent: a moment, and below it what leads to the value then. */
function* momentsOf(trace, agent, identity) {
  const heap = trace.heap(agent);
  let count = 0, isTold = false;
  for (const [row, { line, agent: actor, place }] of trace.rows.entries()) {
    if (actor !== agent) continue;
    heap.apply(line);
    if (line.event === "emptied") count += 1;
    const isEnd = line.event === "agent ends";
    if (isEnd ? isTold : line.event !== "emptied") continue;
    const moment = isEnd ? "at its end" : `after collection ${count} (${whereIs(place, heap)})`;
    if (heap.things.has(identity)) yield* leads(trace, heap, { agent, row, moment, identity });
    else if (heap.emptied.includes(identity)) yield `${moment}: ${trace.told(agent, identity, row)} was emptied`;
    isTold ||= heap.kinds.has(identity);
  }
}

/** Where a collection is: its command, or the end of a job, as that of a later collection. */
function whereIs(place, { passed }) {
  return place ? `job ${place.job}, command ${place.command}` : `the end of job ${passed + 1}`;
}

function* leads(trace, heap, { agent, row, moment, identity }) {
  const name = (one) => trace.told(agent, one, row);
  yield `${moment}, ${name(identity)} has`;
  const found = saidOfAll(heap, identity, { name, hides: (variable) => trace.hides(variable) });
  for (const { text } of found) yield `  ${text}`;
  if (found.length === 0) yield "  nothing that leads to it";
}
