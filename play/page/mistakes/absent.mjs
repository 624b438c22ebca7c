// What has a name that no callback, or no other agent, has: crates/es_explain/specs/Causes.antt in JavaScript.

import { namesOf } from "../json.mjs";
import { quoted } from "./texts.mjs";

/** How many of the names that are there are listed. */
const MOST_NAMES = 8;

const agentsOf = (plan) => plan.members.get("agents").value.items;
const nameOf = (agent) => agent.members.get("name").value.content;

function listed(names) {
  if (names.length === 0) return "none";
  return [...names.slice(0, MOST_NAMES).map(quoted), ...(names.length > MOST_NAMES ? [".."] : [])].join(", ");
}

/** An agent, by its number, has no callback of this name. */
export function noCallback(plan, agent, name) {
  const mine = agentsOf(plan)[agent];
  return `There is no callback ${quoted(name)}. Callbacks of agent ${nameOf(mine)}: ${listed(namesOf(mine.members.get("callbacks").value))}.`;
}

/** An agent, by its number, can't do this to one of this name. */
export function noAgent(deed, plan, agent, name) {
  const agents = agentsOf(plan);
  if (name === nameOf(agents[agent])) return `Agent ${name} can't ${deed} itself.`;
  return `There is no agent ${quoted(name)} to ${deed}. Other agents: ${listed(agents.filter((_, number) => number !== agent).map(nameOf))}.`;
}
