// The trace in the page: its steps, of which one is the current one, and the heap after it.

import { HeapView } from "./heap_view.mjs";
import { Trace } from "./replay.mjs";
import { Steps } from "./steps.mjs";
import { rowsOf, statementRows } from "./steps_of.mjs";
import { Telling } from "./telling.mjs";

/** The letters of a row that other rows tell. */
const MOST_LETTERS = 40;

const element = (name, content) => Object.assign(document.createElement(name), { textContent: content });

export class Tracing {
  /** `at` gives the elements of the page; `changed` is called where another row is the current one, and `ask` asks the engine
      for the lines of a plan's trace. */
  constructor(at, changed, ask) {
    Object.assign(this, { at, changed, trace: null, row: 0 });
    this.steps = new Steps(at("rows"), (row) => this.go(row));
    this.heap = new HeapView(at, this, ask);
    for (const [id, by] of [["to-first", -Infinity], ["back", -1], ["forward", 1], ["to-last", Infinity]]) {
      at(id).addEventListener("click", () => this.go(this.row + by));
    }
    at("to-collection").addEventListener("click", () => this.goToCollection());
    at("whose").addEventListener("change", () => this.draw());
    at("ledger").addEventListener("change", () => this.showLedger(at("ledger").checked));
    at("trace").addEventListener("keydown", (event) => this.step(event));
  }

  /** Shows the trace of a plan, or none; of a script's plan by the script's statements. It begins at the row before the first
      collection, where there is one. */
  show(text, plan, script = null) {
    this.trace = text === "" ? null : new Trace(text, plan, { isScript: script !== null });
    const names = this.trace?.agents.map(({ name }) => name) ?? [];
    this.at("whose").replaceChildren(element("option", "the row's agent"), ...names.map((name) => element("option", name)));
    this.at("whose").parentElement.hidden = names.length < 2;
    this.heap.begin(this.trace);
    if (this.trace === null) this.steps.show([]);
    else this.steps.show(this.listed(script));
    this.go(Math.max(0, this.steps.rows.findIndex(({ collects }) => collects) - 1));
  }

  listed(script) {
    const telling = new Telling(this.trace, (row) => this.spelled(row));
    return script ? statementRows(telling, script) : rowsOf(telling);
  }

  /** Shows the rows of the ledger or not. The current row stays, or the one before it that is there. */
  showLedger(isShown) {
    const { row: event } = this.current ?? { row: 0 };
    this.steps.hasLedger = isShown;
    this.steps.show(this.steps.steps);
    this.go(this.steps.rows.findLastIndex(({ row }) => row <= event));
  }

  /** The current step; undefined where there is none. */
  get current() {
    return this.steps.rows[this.row];
  }

  /** The places in the plan of the commands of the current step. */
  get places() {
    const { from, row } = this.current ?? { from: 0, row: -1 };
    return this.trace?.rows.slice(from, row + 1).flatMap(({ place }) => place ?? []) ?? [];
  }

  /** How many rows there are. */
  get length() {
    return this.steps.rows.length;
  }

  /** Makes a row the current one, or the nearest that there is. */
  go(row) {
    const { rows } = this.steps;
    this.row = Math.min(rows.length - 1, Math.max(0, row));
    this.at("step").textContent = rows.length === 0 ? "" : `${this.row + 1} of ${rows.length}`;
    // A row may be longer than a narrow window.
    this.at("row-told").textContent = rows.length === 0 ? "" : Object.values(this.current.words).join(" ");
    // A disabled button would lose the focus.
    for (const id of ["to-first", "back"]) this.at(id).ariaDisabled = this.row <= 0;
    for (const id of ["forward", "to-last"]) this.at(id).ariaDisabled = this.row >= rows.length - 1;
    this.at("to-collection").ariaDisabled = !rows.some(({ collects }) => collects);
    this.steps.go(this.row);
    this.draw();
    this.changed();
  }

  /** Goes to the step that has an event of the trace. */
  goToEvent(event) {
    this.go(this.numberOf(event) - 1);
  }

  /** Goes to the first step that has the command at a place in the plan. */
  goToPlace(place) {
    const isIt = (one) => one && one.agent === place.agent && one.job === place.job && one.callback === place.callback && one.command === place.command;
    const event = this.trace.rows.findIndex((row) => isIt(row.place));
    if (event >= 0) this.goToEvent(event);
    return event >= 0;
  }

  /** The number of the row, from 1, in which an event of the trace is told. */
  numberOf(event) {
    return Math.max(0, this.steps.rows.findIndex(({ from, row }) => from <= event && event <= row)) + 1;
  }

  /** What the row is called in which an event of the trace is told. */
  spelled(event) {
    const number = this.numberOf(event), text = this.steps.rows[number - 1]?.words.event ?? "";
    return `row ${number} (${text.length > MOST_LETTERS ? `${text.slice(0, MOST_LETTERS - 1)}…` : text})`;
  }

  /** The next collection, and after the last one the first. */
  goToCollection() {
    const { rows } = this.steps;
    const next = rows.findIndex(({ collects }, row) => collects && row > this.row);
    const found = next < 0 ? rows.findIndex(({ collects }) => collects) : next;
    if (found >= 0) this.go(found);
  }

  /** The arrows to the left and to the right go from row to row. */
  step(event) {
    const by = { ArrowRight: 1, ArrowLeft: -1 }[event.key];
    const isOther = event.target.closest("select, input, .split") !== null;
    if (by === undefined || event.altKey || isOther || this.trace === null) return;
    this.go(this.row + by);
    event.preventDefault();
  }

  // The heap

  /** The agent whose heap is drawn: the chosen one, or that of the step; of one of the ledger that of the row before it. */
  agent() {
    const chosen = this.at("whose").selectedIndex;
    if (chosen > 0) return this.trace.agents[chosen - 1].name;
    let row = this.row;
    while (row > 0 && this.steps.rows[row].agent === null) row -= 1;
    return this.steps.rows[row]?.agent ?? this.trace.agents[0].name;
  }

  draw() {
    if (this.trace === null) this.heap.clear();
    else this.heap.show(this.agent(), this.current ?? { from: 0, row: -1 });
  }
}
