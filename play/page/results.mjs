// What came of what is written, on the right of the page: the steps with the heap, and the report of a plan, or what a script
// printed and its plan.

import { Printed } from "./console.mjs";
import { readJson } from "./json.mjs";
import { commandIn } from "./places.mjs";
import { Planned } from "./planned.mjs";
import { counted, lasting, show } from "./report.mjs";
import { Tabs } from "./tabs.mjs";
import { Tracing } from "./tracing.mjs";

/** The letters of the longest trace that is shown. */
const LONGEST_TRACE = 30_000_000;
/** Why there is no answer, by its status. */
export const WITHOUT_TEXT = {
  3: "Memory ran out. A run may take 4 GiB at most, and less on a small machine.",
  4: "The plan is longer than a plan may be.",
};

export class Results {
  /** `ask` asks the engine; it gives null if that is stopped. `aside` asks for the trace of a plan that is not the written one. */
  constructor(at, editor, { ask, aside }) {
    Object.assign(this, { at, editor, ask });
    /** What was run, and whether it went well; null before the first run. */
    this.text = null;
    this.isGood = false;
    /** What the steps are of: a text, and of a plan how it is read, of a script what it came to. */
    this.traced = null;
    this.plan = null;
    this.script = null;
    this.tabs = new Tabs(at, ["trace", "report", "printed", "planned"], () => this.showTab());
    this.tracing = new Tracing(at, () => this.markStep(), aside);
    this.printed = new Printed(at("printed"), (event) => this.tracing.goToEvent(event));
    this.planned = new Planned(at("planned"), (place) => this.tracing.goToPlace(place));
  }

  say(kind, text) {
    this.at("state").className = kind;
    this.at("state").textContent = text;
  }

  /** What is shown is of something else than what is written. */
  age() {
    this.at("answer").classList.toggle("old", this.text !== null && this.text !== this.editor.text);
  }

  begin(text, isGood, isScript) {
    Object.assign(this, { text, isGood, traced: null, plan: null, script: null });
    this.age();
    for (const [name, isThere] of [["report", !isScript], ["printed", isScript], ["planned", isScript]]) this.at(`${name}-tab`).hidden = !isThere;
    if (this.at(`${this.tabs.shown}-tab`).hidden) this.tabs.show(isScript ? "printed" : "report");
  }

  // A script

  ofScript(text, answer) {
    const { status, failure, lines, places, statements, took } = answer;
    if (status !== 0) return this.say("bad", WITHOUT_TEXT[status] ?? failure);
    this.begin(text, true, true);
    Object.assign(this, { traced: text, script: { source: text, lines, places, statements } });
    this.printed.show(lines);
    this.planned.show(answer.text);
    this.tracing.show(answer.trace.length > LONGEST_TRACE ? "" : answer.trace, answer.text, this.script);
    return this.say("good", `${counted(lines.length, "line")}, ${counted(this.tracing.length, "step")}, ${lasting(took)}`);
  }

  // A plan

  async ofPlan(text, { status, text: said = "", took, failure }) {
    this.begin(text, status === 0, false);
    show(this.at("report"), said);
    this.tellEnd({ status, failure }, () => `${counted(said.split("\n").length - 1, "line")}, ${lasting(took)}`);
    this.tracing.show("", text);
    await this.showTrace();
  }

  /** A run was stopped. */
  stopped(text) {
    this.begin(text, false, this.at("report-tab").hidden);
    this.at("report").textContent = "";
    this.tracing.show("", text);
    this.say("bad", "Stopped.");
  }

  tellEnd({ status, failure }, inWords) {
    if (status === 0) this.say("good", inWords());
    else this.say("bad", WITHOUT_TEXT[status] ?? failure);
  }

  /** Shows the trace of the plan that was run, where it is looked at and is not that already. */
  async showTrace() {
    if (this.tabs.shown !== "trace" || !this.isGood || this.traced === this.text || !this.at("stop").hidden) return;
    const answer = await this.ask("trace", this.text, { all: true });
    if (answer !== null) this.endTrace(answer);
  }

  endTrace(answer) {
    this.traced = this.text;
    this.plan = readJson(this.traced).value;
    const { status, text = "" } = answer;
    const isLong = text.length > LONGEST_TRACE;
    this.tracing.show(status !== 0 || isLong ? "" : text, this.traced);
    this.tellEnd(answer, () => (isLong ? "The trace is too long to show." : `${counted(this.tracing.length, "row")}, ${lasting(answer.took)}`));
  }

  // Marks

  showTab() {
    if (this.editor.kind === "step") this.editor.mark(null);
    this.markStep();
    this.showTrace();
  }

  /** Marks what the current step is about, where it is looked at and nothing was changed since. */
  markStep() {
    if (this.traced === null || this.traced !== this.editor.text || this.tabs.shown === "report") return;
    if (this.script !== null) this.planned.mark(this.tracing.places);
    this.editor.mark(this.stepPlace(), "step");
    if (this.editor.place !== null) this.editor.reveal();
  }

  stepPlace() {
    const { current, places: [first] } = this.tracing;
    if (this.script !== null) return current?.place ?? null;
    return first ? commandIn(this.plan, first) : null;
  }
}
