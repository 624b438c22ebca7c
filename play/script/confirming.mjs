// Whether the engine answers what the machines guessed, of the whole plan, command by command.

import { broken } from "./faults.mjs";
import { Sym, isThing, literalOf } from "./values.mjs";

/** A value as the lines of a trace have it. */
function told(value) {
  if (value instanceof Sym) return value.registered ? { symbolfor: value.description } : { symbol: value.number };
  return isThing(value) ? { object: value.number } : literalOf(value);
}

/** What the trace says of each agent, as far as the machines guess it. */
function saidBy(trace) {
  const said = new Map();
  for (const text of trace.split("\n")) {
    const line = text === "" ? {} : JSON.parse(text);
    if (!["did", "refused", "caught", "emptied", "taken"].includes(line.event)) continue;
    if (!said.has(line.agent)) said.set(line.agent, []);
    said.get(line.agent).push(line);
  }
  return said;
}

const guessOf = ({ command, answer, error, emptied, taken }) => {
  if (emptied !== undefined) return { event: "emptied", what: emptied };
  if (taken !== undefined) return { event: "taken", what: taken };
  if (error !== undefined) return { event: "refused", command, what: error };
  if (command[0] === "try") return { event: "caught", command: command.slice(2), what: answer };
  return command[0] === "collect" ? { event: "emptied", command, what: answer } : { event: "did", command, what: told(answer) };
};
const answerOf = (line) => ({
  did: () => line.answer?.gives ?? null, refused: () => line.error, caught: () => line.error, emptied: () => line.identities, taken: () => line.registration,
})[line.event]();

const isEqual = (one, other) => JSON.stringify(one ?? null) === JSON.stringify(other ?? null);

/** The first collection of an agent of which the engine says something else: null where there is none. */
function differing(name, guesses, lines, isCut) {
  let collections = 0;
  for (let place = 0; place < (isCut ? guesses.length : Math.max(guesses.length, lines.length)); place += 1) {
    const line = lines[place];
    const guess = guesses[place] && guessOf(guesses[place]);
    const isSame = guess && line && guess.event === line.event && isEqual(guess.command, line.command);
    if (isSame && isEqual(guess.what, answerOf(line))) {
      if (line.event === "emptied") collections += 1;
      continue;
    }
    if (isSame && line.event === "emptied") return { agent: name, collection: collections, identities: line.identities };
    throw broken(`agent ${name}, event ${place}: guessed ${JSON.stringify(guess)}, and the engine says ${JSON.stringify(line)}`);
  }
  return null;
}

/** Compares a trace with the events of the agents. Where these are cut off, by a fault, nothing is asked of what comes after. */
export function confirm(trace, agents, isCut) {
  const said = saidBy(trace);
  for (const agent of agents) {
    const { name, writer, world } = agent;
    world.common.enter(agent);
    const found = differing(name, writer.machine.events, said.get(name) ?? [], isCut);
    if (found !== null) return found;
  }
  return null;
}
