// What one who wrote a plan without a fault may not have meant: a variable that nothing assigns or nothing reads, and a
// registration that is sure to be refused. Nothing is refused for it. docs/COMMAND_LINE.md has the rules.

import { escaped } from "./mistakes/texts.mjs";
import { TRY, variablesOf } from "./mistakes/words.mjs";

/** The variable that the host assigns before each call of a callback. */
const HELD = "held";
/** A longer plan is not looked through, as its value would take the memory of a small machine. */
const MOST_BYTES = 2 ** 27;

/** How a variable is mentioned. An assignment is an answer if it is for that variable alone: a literal, something new, or the answer
    to a question. */
const READ = "read", ANSWERED = "answered", OTHERWISE = "assigned otherwise";
/** The commands whose assignment is an answer. `let` is one besides, unless it only lets go of what its variable held. */
const ANSWERS = new Set([
  "new", "symbol", "symbolfor", "same", "weakmap", "wmhas", "weakset", "wshas", "registry", "buffer", "length", "sameblock",
]);

/** The warnings of a plan without a fault, given as text or bytes: each with the name of its `agent`, the `path` of keys and indices
    that leads to its command, the same as a JSON `pointer`, a `sentence`, the `variable`, and its `cause`. */
export function warningsOf(plan) {
  if (plan.length > MOST_BYTES) return [];
  const { agents } = JSON.parse(typeof plan === "string" ? plan : new TextDecoder().decode(plan));
  return agents.flatMap((agent, number) => ofAgent(agent, runsOf(agent, ["agents", number])));
}

/** Warnings as the program writes them, each on a line. */
export const warningLines = (warnings) => warnings.map(({ pointer, sentence }) => `warning ${JSON.stringify(pointer)} ${sentence}\n`).join("");

/** The lists of commands of an agent in the order in which they are looked through. Names are ASCII, so their order is that of
    their bytes. */
function runsOf({ jobs, callbacks }, path) {
  const names = Object.keys(callbacks).sort();
  return [
    ...jobs.map(({ on, run }, job) => runOf([...path, "jobs", job, "run"], run, { before: on ? [on[1]] : [], isCallback: false })),
    ...names.map((name) => runOf([...path, "callbacks", name], callbacks[name], { before: [HELD], isCallback: true })),
  ];
}

/** A list of commands with its path, and the variables that are assigned before the first one. A plan does not tell whether a refusal
    is caught, so what `try` may assign is one of these. The commands have no `try`. */
function runOf(path, commands, { before, isCallback }) {
  const caught = commands.filter(isTried).map(([, variable]) => variable);
  const bare = commands.map((command) => (isTried(command) ? command.slice(2) : command));
  return { path, commands: bare, before: [...before, ...caught], isCallback };
}

const isTried = ([word]) => word === TRY;

function ofAgent({ name }, runs) {
  const variables = variablesIn(runs);
  return [...ofVariables(variables), ...ofRegistrations(runs)].map(({ run, at, ...said }) => {
    const path = [...run.path, at];
    return { agent: name, path, pointer: path.map((part) => `/${escaped(part)}`).join(""), ...said };
  });
}

// Variables

/** The variables of an agent, by their names in the order of their first mentions: of each that mention, and what becomes of it
    anywhere. */
function variablesIn(runs) {
  const variables = new Map();
  for (const run of runs) {
    for (const variable of run.before) mention(variables, variable, OTHERWISE, run, -1);
    run.commands.forEach((command, at) => mentionAll(variables, command, run, at));
  }
  return variables;
}

/** A command reads before it assigns. */
function mentionAll(variables, command, run, at) {
  const { read, assigned } = operandsOf(command);
  // From version 3 on a variable may stand where else a number does.
  for (const place of read) if (typeof command[1 + place] === "string") mention(variables, command[1 + place], READ, run, at);
  if (assigned >= 0) mention(variables, command[1 + assigned], isAnswer(command) ? ANSWERED : OTHERWISE, run, at);
}

function mention(variables, name, manner, run, at) {
  let variable = variables.get(name);
  if (variable === undefined) {
    variable = { first: { manner, run, at }, isUsed: false, isAssigned: false, isAssignedInCallback: false };
    variables.set(name, variable);
  }
  if (manner !== ANSWERED) variable.isUsed = true;
  if (manner !== READ) variable.isAssigned = true;
  if (manner !== READ && run.isCallback) variable.isAssignedInCallback = true;
}

const isAnswer = (command) => ANSWERS.has(command[0]) || (command[0] === "let" && command[2] !== null);

/** Which operands are variables, by the word of a command and by how many it has: found once for each. */
const known = new Map();

function operandsOf(command) {
  const word = command[0], count = command.length - 1;
  if (!known.has(word)) known.set(word, []);
  const forms = known.get(word);
  forms[count] ??= variablesOf(word, count);
  return forms[count];
}

function ofVariables(variables) {
  return [...variables].flatMap(([variable, { first: { manner, run, at }, ...seen }]) => {
    const warning = MANNERS[manner](variable, seen);
    return warning === null ? [] : [{ ...warning, variable, run, at }];
  });
}

/** By the manner of a variable's first mention, what there is to warn of. */
const MANNERS = {
  // When a callback runs is not known, so what it assigns may be there.
  [READ]: (name, { isAssigned, isAssignedInCallback }) => {
    if (isAssignedInCallback) return null;
    if (isAssigned) return { cause: "assigned later", sentence: `${name} is read before anything assigns it, so it is undefined` };
    return { cause: "unassigned", sentence: `nothing assigns ${name}, so it is undefined; let assigns a text` };
  },
  // What is let go, or assigned otherwise, is meant for what it holds.
  [ANSWERED]: (name, { isUsed }) => (isUsed ? null : { cause: "unread", sentence: `nothing reads ${name}` }),
  [OTHERWISE]: () => null,
};

// Registrations

/** Those that would hold their own target. */
function* ofRegistrations(runs) {
  for (const run of runs) {
    for (let at = 0; at < run.commands.length; at += 1) {
      const { 0: word, 2: target, 3: held } = run.commands[at];
      if (word !== "register" || target !== held) continue;
      yield { cause: "held target", sentence: `the held value is the target ${target}, so this is refused`, variable: target, run, at };
    }
  }
}
