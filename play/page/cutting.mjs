// What goes if an edge is cut: the plan with a command more is run beside the plan as it is. What stands in the editor stays.

import { identityOf, Trace } from "./replay.mjs";

/** The variable by which a cut goes to an object; scripts do not show it. */
const STEP = "_c9999";

/** The commands that cut an edge into a value of a heap. Null where no plan can: it is no variable and no property, or no
    variable leads over properties to the object. */
export function cutsOf(edge, heap) {
  if (edge.kind === "variable") return heap.hides(edge.variable) ? null : [["let", edge.variable, null]];
  const way = edge.kind === "property" ? wayOver(heap, edge.object) : null;
  if (way === null) return null;
  const [variable, ...properties] = way;
  const steps = properties.map((property, at) => ["get", STEP, at === 0 ? variable : STEP, property]);
  return [...steps, ["delete", STEP, steps.length === 0 ? variable : STEP, edge.property]];
}

/** A variable and the properties that lead from it to an object, as few as can be; null where none do. */
function wayOver({ variables, things }, goal) {
  const ways = [...variables].map(([variable, value]) => ({ at: identityOf(value), way: [variable] }));
  const seen = new Set();
  for (const { at, way } of ways) {
    if (at === goal) return way;
    if (at === null || seen.has(at) || !things.has(at)) continue;
    seen.add(at);
    for (const [property, value] of things.get(at).properties) ways.push({ at: identityOf(value), way: [...way, property] });
  }
  return null;
}

/** Where the plan of an agent goes on after a row: in which job, from 1, and after how many of its commands. `passed` jobs have
    ended. */
export function placeAfter(trace, agent, row, passed) {
  while (row >= 0 && trace.rows[row].agent !== agent) row -= 1;
  const { line, place } = trace.rows[row] ?? {};
  if (line?.event === "job") return { job: line.job, command: 0 };
  if (place?.job !== undefined && line.event !== "refused") return { job: place.job, command: place.command };
  return { job: passed + 1, command: 0 };
}

/** A plan with commands more at a place of an agent, and with a collection after its last job, if that is asked for. */
export function planWith(text, agent, { job, command }, commands, collects) {
  const plan = JSON.parse(text), { jobs } = plan.agents.find(({ name }) => name === agent);
  if (job > jobs.length) jobs.push({ run: commands });
  else jobs[job - 1].run.splice(command, 0, ...commands);
  if (collects) jobs.push({ run: [["collect"]] });
  return JSON.stringify(plan);
}

/** The rows in which an agent's collections end. */
const collections = ({ rows }, agent) => rows.flatMap((row, number) => (row.agent === agent && row.kept !== null ? [number] : []));

/** What the next collection of an agent empties after a row, as the plan is and with a cut: the trace of each and the row of
    that collection. Null if it was stopped; `ask` gives the lines of a plan's trace. */
export async function compared({ trace, text, agent, row, passed }, commands, ask) {
  const count = collections(trace, agent).filter((number) => number <= row).length;
  const comes = collections(trace, agent).length > count;
  const place = placeAfter(trace, agent, row, passed);
  const run = async (added) => {
    const plan = planWith(text, agent, place, added, !comes), answer = await ask(plan);
    if (answer === null || answer.status !== 0) return null;
    const found = new Trace(answer.text, plan, trace);
    return { trace: found, row: collections(found, agent)[count] };
  };
  const before = comes ? { trace, row: collections(trace, agent)[count] } : await run([]);
  const after = await run(commands);
  return before && after && { comes, before, after };
}

/** What the comparison comes to in words, as sentences; `what` is the edge, `chosen` the value that it leads to. */
export function saidOfCut({ comes, before, after }, { agent, chosen, what, where, reason }) {
  const name = (identity) => after.trace.told(agent, identity, after.row ?? after.trace.rows.length);
  const when = comes ? "the next collection" : "a collection after the last job";
  const said = [];
  if (after.row === undefined) said.push(`Without ${what} ${where}, no collection comes any more.`);
  else {
    const gone = emptiedIn(before), more = emptiedIn(after).filter((identity) => !gone.includes(identity));
    const goes = more.length === 0 ? `empties no more than it does now (${gone.length})` : `empties also ${listed(more.map(name))}`;
    said.push(`Without ${what} ${where}, ${when} ${goes}.`);
    const by = after.trace.rows[after.row].kept.get(chosen);
    if (by !== undefined) said.push(`${name(chosen)} stays: ${reason(by, after.trace, after.row)}`);
  }
  const refused = refusals(after.trace, agent).slice(refusals(before.trace, agent).length);
  if (refused.length > 0) said.push(`Then ${refused[0].command.join(" ")} is refused: ${refused[0].error}.`);
  return said;
}

const emptiedIn = ({ trace, row }) => trace.rows[row].line.identities;
const refusals = ({ rows }, agent) => rows.map(({ line }) => line).filter((line) => line.agent === agent && line.event === "refused" && line.command);

/** So many names are listed. */
const MOST = 6;

function listed(names) {
  const some = names.slice(0, MOST).join(", ");
  return names.length > MOST ? `${some} and ${names.length - MOST} more` : some;
}
