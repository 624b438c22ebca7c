// The first part of a value that keeps it from having the shape of a plan: crates/es_explain/specs/Misshapen.antt in JavaScript.
// A part's trouble is the path that leads to it, what is wrong there, and whether that is a key (`isOfKey`); null where all is well.

import { namesOf } from "../json.mjs";
import { quoted, valueText } from "./texts.mjs";

const isText = ({ content }) => typeof content === "string";
const isNumber = ({ content }) => typeof content === "number";

const here = (sentence) => ({ path: [], sentence, isOfKey: false });
const other = (wanted, value) => here(`${wanted}, and here stands ${valueText(value)}.`);
const under = (key, trouble) => trouble && { ...trouble, path: [key, ...trouble.path] };

/** What the first part gives that gives anything. */
function first(parts, give) {
  for (const part of parts) {
    const found = give(part);
    if (found !== null) return found;
  }
  return null;
}

// Lists and objects

const kind = (is, wanted) => (value) => (is(value) ? null : other(wanted, value));

const list = (wanted, test) => (value) => (
  value.items ? first(value.items.entries(), ([index, item]) => under(index, test(item))) : other(wanted, value));

/** An object with these members, each by its key with its test; `owned` says which these are. */
function object({ wanted, owner, owned, tests, optional = [] }) {
  const keys = Object.keys(tests);
  return (value) => {
    if (!value.members) return other(wanted, value);
    const unknown = namesOf(value).find((key) => !keys.includes(key));
    if (unknown !== undefined) return { path: [unknown], sentence: `${owner} has no member ${quoted(unknown)}: it has ${owned}.`, isOfKey: true };
    const missing = keys.find((key) => !optional.includes(key) && !value.members.has(key));
    if (missing !== undefined) return here(`${owner} has ${owned}: ${missing} is missing.`);
    return first(keys.filter((key) => value.members.has(key)), (key) => under(key, tests[key](value.members.get(key).value)));
  };
}

// The parts of a plan

function command(value) {
  const wanted = "A command is a list that begins with its word";
  if (!value.items) return other(wanted, value);
  if (value.items.length === 0) return here(`${wanted}, and this one is empty.`);
  return isText(value.items[0]) ? null : here(`${wanted}, and this one begins with ${valueText(value.items[0])}.`);
}

function on(value) {
  if (value.items?.length === 2 && value.items.every(isText)) return null;
  return here("on is a list of two texts: the agent that is waited for, and a variable.");
}

function callbacks(value) {
  if (!value.members) return other("callbacks is an object of lists", value);
  return first(namesOf(value), (key) => under(key, callback(value.members.get(key).value)));
}

const callback = list("A callback is a list of commands", command);

const job = object({
  wanted: "A job is an object", owner: "A job", owned: "run, and on where it waits", optional: ["on"],
  tests: { run: list("run is a list of commands", command), on },
});

const agent = object({
  wanted: "An agent is an object", owner: "An agent", owned: "name, callbacks and jobs",
  tests: { name: kind(isText, "The name of an agent is a text"), callbacks, jobs: list("jobs is a list", job) },
});

/** The trouble of a plan's value. */
export const planTrouble = object({
  wanted: "A plan is an object", owner: "A plan", owned: "version and agents",
  tests: { version: kind(isNumber, "version is a number"), agents: list("agents is a list", agent) },
});
