// Where a command stands in the text of a plan.

/** The letters of a command in a plan that was read: of the agent of a number from 0, in the job of a number from 1 or the
    callback of a name; null where there is none. */
export function commandIn(plan, { agent, job, callback, command }) {
  const members = plan.members.get("agents").value.items[agent].members;
  const callbacks = members.get("callbacks").value.members, jobs = members.get("jobs").value.items;
  const run = job === undefined ? callbacks.get(callback) : jobs[job - 1].members.get("run");
  return run?.value.items[command - 1] ?? null;
}
