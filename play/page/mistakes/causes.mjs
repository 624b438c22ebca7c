// The sentence that says what a fault of a plan's value is: crates/es_explain/specs/Causes.antt in JavaScript.

import { noAgent } from "./absent.mjs";
import { planTrouble } from "./misshapen.mjs";
import { isName, noName } from "./names.mjs";
import { commandSentence } from "./operands.mjs";

const MOST_CALLBACKS = 1000;
const MOST_JOBS = 1000;
const MOST_COMMANDS = 10000;

/** Of a fault with these parts, what is wrong with the part of the plan that has it; of a callback's key that is its name. */
export function causeOf(parts, plan, part) {
  if (parts.command === undefined) return BESIDE[parts.code]?.(parts, plan, part) ?? "";
  return commandSentence(parts.code, plan, parts.agent, part.items);
}

/** Outside of commands. */
const BESIDE = {
  S2: (parts, plan) => planTrouble(plan)?.sentence,
  S3: () => "The version is 1, 2 or 3.",
  S4: (parts, plan, { items }) => `A plan has 1 to 8 agents, and here are ${items.length === 0 ? "none" : items.length}.`,
  S5: (parts, plan, part) => nameSentence(parts, part),
  S6: (parts, plan, { items }) => noAgent("wait for", plan, parts.agent, items[0].content),
  S10: (parts, plan, part) => limitSentence(parts, part),
};

/** Of an agent's name, of a callback's key, or of whose message a job waits for and the variable that it assigns. */
function nameSentence({ job }, part) {
  if (job !== undefined) return noName(part.items.map(({ content }) => content).find((name) => !isName(name)) ?? part.items[1].content);
  return isName(part.content) ? `Two agents have the name ${part.content}.` : noName(part.content);
}

function limitSentence({ callback, job }, part) {
  if (callback !== undefined) return tooMany("A callback", "commands", MOST_COMMANDS, part.items.length);
  if (job !== undefined) return tooMany("A job", "commands", MOST_COMMANDS, part.items.length);
  const callbacks = part.members.get("callbacks").value.members.size, jobs = part.members.get("jobs").value.items.length;
  return callbacks > MOST_CALLBACKS ? tooMany("An agent", "callbacks", MOST_CALLBACKS, callbacks) : tooMany("An agent", "jobs", MOST_JOBS, jobs);
}

const tooMany = (owner, parts, most, count) => `${owner} has at most ${most} ${parts}, and this one has ${count}.`;
