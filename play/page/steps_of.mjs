// What stands in the list of a trace: of a plan each row; of a script a step for each statement, which opens to its commands.
// Below them stand notes.

import { identityOf } from "./replay.mjs";
import { plain } from "./graph.mjs";
import { notesOf } from "./notes.mjs";
import { statementAt } from "./statements.mjs";
import { letGo } from "./telling.mjs";

/** A row as it is. Its words are found when it is drawn, as there may be very many. */
class Row {
  constructor(telling, { line, agent, kept }, row, level = 0, place = null) {
    Object.assign(this, { telling, line, agent, row, from: row, level, place, commands: [], isOpen: false, may: null, collects: kept !== null });
  }

  get kind() {
    return this.agent === null ? "ledger" : this.line.event.replace(" ", "-");
  }

  get words() {
    return this.telling.words(this.row);
  }

  get notes() {
    return notesOf(this, this.telling);
  }
}

/** The steps of a plan's trace. */
export const rowsOf = (telling) => telling.trace.rows.map((one, row) => new Row(telling, one, row));

/** The steps of a script's trace. `script` has the source, the places of the plan's commands in it, its statements and what it
    printed. */
export function statementRows(telling, script) {
  const steps = new Told(telling, script);
  telling.trace.rows.forEach((row, number) => steps.add(row, number));
  return steps.all;
}

/** A trace as it is told by the statements of its script. */
class Told {
  constructor(telling, { source, places, statements, lines }) {
    const { trace } = telling;
    Object.assign(this, { telling, trace, source, places, statements });
    this.printed = new Map(lines.map((line) => [line.event, line]));
    this.all = [];
    /** By agents: the step that goes on, and whether callbacks are called. */
    this.open = new Map();
    this.cleaning = new Set();
  }

  add(row, number) {
    const inner = new Row(this.telling, row, number, 1, this.placeOf(row.place));
    const told = row.agent === null ? null : this.told(row, number);
    if (row.place) this.command(inner, told);
    else if (told) this.begin(inner, { ...told, statement: null });
    else this.all.at(-1)?.take(inner);
  }

  /** Where a command stands in the script. */
  placeOf(place) {
    if (!place) return null;
    const { callbacks, jobs } = this.places[place.agent];
    return (place.job === undefined ? callbacks[place.callback] : jobs[place.job - 1])[place.command - 1];
  }

  begin(inner, told) {
    const step = new Step(inner, told);
    this.all.push(step);
    this.open.set(inner.agent, told.statement ? step : null);
  }

  /** A command goes on with the step of its statement, or begins one. */
  command(inner, answer) {
    const open = this.open.get(inner.agent);
    const statement = statementAt(this.statements, inner.place);
    const isEnd = inner.place.temporary === true;
    if (open && (isEnd || open.goesOn(statement, inner))) open.take(inner, isEnd ? null : answer);
    else if (isEnd) this.all.at(-1)?.take(inner);
    else this.begin(inner, { ...this.spelled(statement, inner.place), statement, ...answer });
  }

  spelled(statement, place) {
    const { start, end } = statement ? { start: statement.start, end: statement.head } : place;
    const text = this.source.slice(start, end).trim().replace(/\s+/g, " ");
    return { event: statement?.isParameters ? `(${text})` : text, place: { start, end }, kind: "did" };
  }

  /** What a row says in the words of a script; null where it has no step of its own. */
  told({ line, agent, letsGo, target }, number) {
    const printed = this.printed.get(number);
    if (printed) return { answer: printed.text, may: printed.may, kind: line.event === "refused" ? "refused" : "say" };
    if (line.event === "cleanup job") this.cleaning.add(agent);
    const isCleaning = line.event === "job ends" && this.cleaning.delete(agent);
    const name = (value, known) => this.named(agent, value, number, known);
    return TOLD[line.event]?.(line, { name, letsGo, target, isCleaning, trace: this.trace }) ?? null;
  }

  /** A value after a row; an object by its kind, its number and its name, if that is not known. */
  named(agent, value, number, known) {
    const identity = identityOf(value);
    if (identity === null) return value === null ? "undefined" : plain(value);
    return this.trace.told(agent, identity, number, known);
  }
}

/** A step: a statement with its commands, or an event between statements. */
class Step {
  constructor(inner, { statement, event, place = null, ...told }) {
    Object.assign(this, { statement, place, agent: inner.agent, from: inner.row, level: 0, inner: [], isOpen: false, answer: "", kind: "did", may: null });
    this.event = event;
    this.isEnded = false;
    this.take(inner, told);
  }

  get words() {
    return { event: this.event, answer: this.answer };
  }

  /** What it opens to. */
  get commands() {
    return this.kind === "agent-ends" ? [] : this.inner.filter(({ place, agent }) => agent === null || (place && !place.temporary));
  }

  /** What the commands say besides, at the place of the statement. */
  get notes() {
    const { place, from, row } = this;
    return this.inner.flatMap(({ notes }) => notes.map((note) => Object.assign(note, { place, from, row })));
  }

  /** Whether a command is of the same run of the same statement. */
  goesOn(statement, { line, place }) {
    const first = this.inner[0];
    const isAgain = first.place?.start === place.start && JSON.stringify(first.line.command) === JSON.stringify(line.command);
    return statement === this.statement && !this.isEnded && !(statement?.repeats && isAgain);
  }

  take(inner, told = null) {
    this.inner.push(inner);
    this.row = inner.row;
    this.collects ||= inner.collects;
    this.isEnded ||= inner.place?.temporary === true && inner.line.command?.[0] === "let";
    // What a statement prints is told, and not what a variable of it gets.
    if (!(this.kind === "say" && told?.kind === "did")) Object.assign(this, told);
  }
}

const counted = (count, word) => `${count} ${word}${count === 1 ? "" : "s"}`;

/** What events say in the words of a script. What a command gives is told of variables of the script alone. */
const TOLD = {
  "did": ({ command, answer }, { name, trace }) => {
    if (answer?.gives === undefined || trace.hides(command[1])) return null;
    // A plan has no null; which of the two it is the statement says.
    const isLetGo = command[0] === "let" && answer.gives === null;
    return { kind: "did", answer: isLetGo ? `${command[1]} holds no object` : `${command[1]} = ${name(answer.gives, command[1])}` };
  },
  "emptied": ({ command, identities }) => {
    const told = { kind: "emptied", answer: `collected ${counted(identities.length, "value")}` };
    return command ? told : { ...told, event: "later collection ends" };
  },
  "message": ({ sender, value }, { name }) => ({ kind: "message", event: `message of ${sender}`, answer: name(value) }),
  "taken": ({ held }, { name, target }) => ({
    kind: "taken", event: `callback of the registry for ${name({ object: target })}`, answer: `held value ${name(held)}`,
  }),
  "job ends": (_, { letsGo, name, isCleaning }) => ({
    kind: "job-ends", event: isCleaning ? "callbacks end" : "turn ends", answer: letGo(letsGo.map((identity) => name({ object: identity }))),
  }),
  "skipped": ({ sender }) => ({ kind: "skipped", event: `no message of ${sender}`, answer: "its turn is skipped" }),
  "agent ends": ({ agent }) => ({ kind: "agent-ends", event: `${agent} ends`, answer: "" }),
};
