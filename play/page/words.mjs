// A line of a trace in words, as docs/TRACES.md has them, and what keeps a value.

import { plain } from "./graph.mjs";

const hasNumber = (value) => value?.object !== undefined || value?.symbol !== undefined;

/** A value with a number as a trace has it. */
const numbered = (value) => (value.symbol === undefined ? `object ${value.object}` : `symbol ${value.symbol}`);

/** A value in words; `name` says what one with a number is called. */
function valued(value, name = numbered) {
  if (value === null) return "undefined";
  return hasNumber(value) ? name(value) : plain(value);
}

/** The commands whose second operand is a literal. All other texts of a command are names. */
const LITERALS = new Set(["let", "symbolfor"]);

function command(words) {
  const isName = (word, place) => typeof word === "string" && !(place === 2 && LITERALS.has(words[0]));
  return words.map((word, place) => (isName(word, place) ? word : JSON.stringify(word))).join(" ");
}

/** The event of a line, and its answer, which is empty where there is none; `name` says what values are called. */
export function wordsOf(line, name = numbered) {
  const [event, answer = ""] = line.event ? AGENT[line.event](line, name) : LEDGER[line.ledger](line);
  return { event, answer };
}

const AGENT = {
  "job": ({ job }) => [`job ${job}`],
  "cleanup job": ({ registry }, name) => [`cleanup job of ${name({ object: registry })}`],
  "message": ({ sender, value }, name) => [`message of ${sender}`, valued(value, name)],
  "did": (line, name) => [command(line.command), answered(line, name)],
  "refused": (line) => [line.command ? command(line.command) : "message", `error ${line.error}`],
  "caught": (line) => [`try ${line.variable} ${command(line.command)}`, valued(line.error)],
  "emptied": (line) => [line.command ? command(line.command) : "later collection ends", `emptied ${line.identities.length}`],
  "taken": ({ registration, held }, name) => [`registration ${registration} taken`, `cleanup ${registration} held ${valued(held, name)}`],
  "job ends": () => ["job ends"],
  "skipped": ({ job, sender }) => [`no message of ${sender}`, `skipped ${job}`],
  "agent ends": () => ["agent ends"],
};

function answered({ command: [word], values, answer }, name) {
  if (word === "say") return `say ${valued(values[0], name)}`;
  if (answer === null) return "";
  return answer.keys ? ["keys", ...answer.keys].join(" ") : valued(answer.gives, name);
}

const message = (what) => ({ sender, receiver }) => [`message ${sender} to ${receiver} ${what}`];
const word = (what) => (line) => [`word ${line.index} ${what} by ticket ${line.ticket}`, String(line.word)];

const LEDGER = {
  opened: ({ block, words, ticket, agent }) => [`block ${block} opened`, `ticket ${ticket} of ${agent}, words ${words}`],
  posted: (line) => [...message("posted")(line), carried(line.carries)],
  taken: message("taken"),
  drained: message("drained"),
  spent: ({ ticket }) => [`ticket ${ticket} spent`],
  loaded: word("loaded"),
  stored: word("stored"),
  added: ({ index, ticket, old, addend }) => [`word ${index} added to by ticket ${ticket}`, `${old} + ${addend}`],
  waiting: ({ agent, sender }) => [`${agent} waits for ${sender}`],
  passed: ({ agent, sender }) => [`${agent} waits no more for ${sender}`],
  slept: ({ agent, ticket, index, word: there }) => [`${agent} sleeps at word ${index} by ticket ${ticket}`, String(there)],
  notified: ({ ticket, index, woken }) => [`word ${index} notified by ticket ${ticket}`, String(woken)],
  woke: ({ agent }) => [`${agent} wakes`, '"ok"'],
  "timed out": ({ agent }) => [`${agent} wakes`, '"timed-out"'],
  ended: ({ agent }) => [`${agent} ended`],
  released: ({ block }) => [`block ${block} released`],
};

function carried(value) {
  return value?.block === undefined ? valued(value) : `block ${value.block}, ticket ${value.ticket}`;
}

// What keeps a value

/** The values that a reason comes from. */
export function sourcesOf(by) {
  if (by.object !== undefined) return [by.object];
  return by.weakmap === undefined ? [] : [by.weakmap, by.key];
}

/** The values on the way to this one, by what keeps each: what a value comes from stands before it. */
export function wayTo(kept, identity) {
  const found = new Set();
  const visit = (one) => {
    if (found.has(one) || !kept.has(one)) return;
    sourcesOf(kept.get(one)).forEach(visit);
    found.add(one);
  };
  visit(identity);
  return [...found];
}

/** A sentence on what keeps a value; `name` names values, and leaves out a name that is known. In a script's trace a temporary is
    not told by its name. */
export function reason(by, identity, name, trace) {
  const it = name(identity, by.variable ?? by.property);
  if (by.variable !== undefined) return trace.hides(by.variable) ? `The statement that runs holds ${it}.` : `The variable ${by.variable} holds ${it}.`;
  if (by.keptalive) return `KeptAlive has ${it} until the job ends.`;
  if (by.registry) return `${capital(it)} is kept as a FinalizationRegistry.`;
  if (by.registration !== undefined) return `Registration ${by.registration} holds ${it} for its callback.`;
  if (by.object !== undefined) return `The property ${by.property} of ${name(by.object)} holds ${it}.`;
  return `${capital(name(by.weakmap))} has ${it} under ${name(by.key)}: both are kept.`;
}

const capital = (text) => text[0].toUpperCase() + text.slice(1);
