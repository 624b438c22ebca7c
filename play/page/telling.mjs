// How the page tells the rows of a trace: in the words of the trace, with the kinds and the names of values, and with what
// KeptAlive lets go.

import { Losses } from "./losing.mjs";
import { identityOf } from "./replay.mjs";
import { wordsOf } from "./words.mjs";

export class Telling {
  /** `where` says what a row of the trace is called in the list. */
  constructor(trace, where) {
    Object.assign(this, { trace, where, found: new Map() });
  }

  /** The event and the answer of a row, by its number in the trace. */
  words(number) {
    const { line, agent, letsGo, target } = this.trace.rows[number];
    if (agent === null) return wordsOf(line);
    const name = (identity) => this.trace.told(agent, identity, number);
    const words = wordsOf(line, (value) => name(identityOf(value)));
    if (isNull(line)) return { ...words, answer: "undefined, a plan's null" };
    if (line.event === "job ends") return { ...words, answer: letGo(letsGo.map(name)) };
    if (line.event !== "taken") return words;
    return { ...words, event: `registration ${line.registration} of ${name(target)} taken` };
  }

  /** The row, as the list calls it, after which nothing led to a value any more that a row emptied; null where it is not known. */
  since(agent, identity, number) {
    if (!this.found.has(agent)) this.found.set(agent, new Losses(this.trace, agent));
    const row = this.found.get(agent).since(identity, number);
    return row === undefined ? null : this.where(row);
  }
}

/** Whether a line gives a variable what a plan writes as null. */
const isNull = ({ event, command }) => event === "did" && command[0] === "let" && command[2] === null;

/** What a job's end lets go, of which these are the names. */
export const letGo = (names) => (names.length === 0 ? "" : `KeptAlive lets go: ${names.join(", ")}`);
