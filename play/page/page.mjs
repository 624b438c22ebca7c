// The page: what its parts do with each other.

import { linkDocuments } from "./documents.mjs";
import { Editor } from "./editor.mjs";
import { Engine } from "./engine.mjs";
import { Help } from "./helping.mjs";
import { isPlan } from "./kinds.mjs";
import { keep, kept } from "./keeping.mjs";
import { carriedBy, linkOf, saidOfLink } from "./link.mjs";
import { Menu } from "./menu.mjs";
import { mistakeOf } from "./mistakes/mistake.mjs";
import { pointedLine } from "../syntax/fault.mjs";
import { Results, WITHOUT_TEXT } from "./results.mjs";
import { split } from "./split.mjs";
import { showWarnings, warningsIn } from "./warned.mjs";

const at = (id) => document.getElementById(id);
const read = (id) => JSON.parse(at(id).textContent);

/** The milliseconds without a key before what is written is looked at, and those of a run before the page says that it runs. */
const REST = 150;
const PATIENCE = 200;
/** A longer text is run by the button alone. */
const MOST_AT_REST = 20_000;

const NO_ENGINE = "This browser has no 64-bit WebAssembly memory, which the engine needs. Chromium 156 and Firefox 153 have it.";

const plans = read("plans");
const engine = new Engine(at("engine").textContent);
const editor = new Editor(at("plan"), at("numbers"), at("marks"));
const menu = new Menu(at("menu"), plans, (plan) => {
  forgetLink();
  openPlan(plan);
});
const results = new Results(at, editor, { ask: asked, aside: (plan) => asked("trace", plan, { all: true }, true) });
new Help({ area: at("plan"), list: at("offers"), heard: at("heard-word") }, editor, read("words"));
/** The example that stands in the editor; null where its text was changed. */
let opened = null;
let resting = 0;
/** The run or the trace under way; null where there is none. */
let running = null;

// What is written

function openPlan(plan) {
  halt();
  opened = plan;
  editor.text = plan.text;
  tellKind();
  keep(plan.text);
  look({ runs: true });
}

/** Says what of the menu stands in the editor. */
function tellKind() {
  const { group, name, title, rule, section } = opened ?? {};
  const named = Object.assign(document.createElement("b"), { textContent: name === undefined ? "" : `${group} / ${name}` });
  // A lesson says in its first lines what it shows.
  const said = group === "lessons" ? [title] : [title, rule, section && `(${section})`];
  at("about").replaceChildren(named, " ", said.filter(Boolean).join(" "));
  at("plan-title").textContent = isPlan(editor.text) ? "Plan" : "Script";
}

function changed() {
  if (opened?.text === editor.text) return;
  opened = null;
  forgetLink();
  tellKind();
  clearTimeout(resting);
  resting = setTimeout(() => look({ runs: editor.text.length <= MOST_AT_REST }), REST);
  editor.warn([]);
  editor.mark(null);
  results.age();
}

/** Runs what is written, or looks only for a fault in it. */
async function look({ runs }) {
  clearTimeout(resting);
  const text = editor.text;
  keep(text);
  if (runs) return run();
  if (!isPlan(text)) return say(at("fault"), "", "The script is long: Run runs it.");
  const answer = await engine.ask("check", text);
  return text === editor.text ? tell(answer) : undefined;
}

/** Says whether a plan has a fault, and marks the fault's place. */
function tell({ status, text, failure }) {
  if (status !== 1) return tellFault(null, withoutText({ status, failure }));
  const mistake = mistakeOf(text, editor.text);
  return tellFault(mistake.place, inWords(mistake));
}

/** Why there is no answer; null where there is one. */
function withoutText({ status, failure }) {
  if (status === 0) return null;
  return WITHOUT_TEXT[status] ?? (failure.includes("64-bit") ? NO_ENGINE : failure);
}

/** Says what is wrong, where it stands, or that nothing is; then of a plan its warnings. */
function tellFault(place, wrong) {
  const warnings = wrong === null && isPlan(editor.text) ? warningsIn(editor.text) : [];
  editor.mark(place);
  editor.warn(warnings.map((warning) => warning.place));
  at("plan").setAttribute("aria-invalid", wrong !== null);
  at("visit").hidden = place === null && warnings.length === 0;
  if (wrong !== null) say(at("fault"), "bad", wrong);
  else if (warnings.length === 0) say(at("fault"), "good", "No fault.");
  else showWarnings(at("fault"), editor, warnings);
  if (wrong === null) results.markStep();
}

/** A mistake of a plan in words, as `clusterrun explain` has them. */
function inWords({ code, line, column, sentence, place }) {
  const where = line === undefined ? `Line ${editor.line(place.start)}` : `Line ${line}, column ${column}`;
  return `${where}, ${code}: ${sentence}`;
}

// Runs

async function run() {
  const text = editor.text, call = isPlan(text) ? "run" : "script";
  if (running?.text === text && running.call === call) return;
  halt();
  const answer = await asked(call, text);
  if (answer === null || (answer.status === 1 && text !== editor.text)) return;
  if (answer.status === 1 || answer.failure) notRun(call, answer);
  else if (call === "run") await endPlan(text, answer);
  else endScript(text, answer);
}

/** What is written has a fault, or there is no engine. What was run last still stands. */
function notRun(call, answer) {
  if (call === "run" || answer.failure) tell(answer);
  else scriptFault(answer.fault);
  results.age();
  results.say("bad", answer.failure ? "It was not run." : "It has a fault, and was not run.");
}

async function endPlan(text, answer) {
  tellEnd(text, answer);
  await results.ofPlan(text, answer);
}

function endScript(text, answer) {
  tellEnd(text, answer);
  results.ofScript(text, answer);
}

/** Says that a run found no fault, or why it has no answer, if nothing was changed since it began. */
function tellEnd(text, answer) {
  if (text === editor.text) tellFault(null, withoutText(answer));
}

/** Says why a script has no plan: in one line with its place, and the line of the script with a mark below it. */
function scriptFault({ message, start, end }) {
  const place = { start, end: Math.max(end, start + 1) };
  tellFault(place, `Line ${editor.line(start)}: ${message}`);
  at("fault").append(Object.assign(document.createElement("pre"), { textContent: pointedLine(editor.text, place.start, place.end) }));
}

/** Asks the engine for a run or a trace, which may be stopped; null where it was. What is asked for aside is not of what is
    written. */
async function asked(call, text, options, isAside = false) {
  const mine = { call, text, isAside };
  running = mine;
  at("stop").hidden = false;
  if (!isAside) setTimeout(() => { if (running === mine) results.say("", "running .."); }, PATIENCE);
  const answer = await engine.ask(call, text, options);
  if (running !== mine) return null;
  running = null;
  at("stop").hidden = true;
  return answer;
}

/** Ends the run or the trace under way, if there is one. */
function halt() {
  if (running === null) return null;
  engine.stop();
  const ended = running;
  running = null;
  at("stop").hidden = true;
  return ended;
}

function stop() {
  const ended = halt();
  if (ended?.isAside) return say(at("cut"), "", "Stopped.");
  if (ended?.call === "trace") results.endTrace({ failure: "Stopped." });
  else if (ended !== null) results.stopped(ended.text);
  if (isPlan(editor.text)) look({ runs: false });
  else say(at("fault"), "", "Stopped.");
  return undefined;
}

// Links

async function link() {
  history.replaceState(null, "", await linkOf(editor.text));
  const copied = await navigator.clipboard?.writeText(location.href).then(() => true, () => false);
  say(at("fault"), "good", saidOfLink(location, copied));
}

/** The address no longer carries what is written: else a reload would bring the older text. */
function forgetLink() {
  if (location.hash !== "") history.replaceState(null, "", location.href.split("#")[0]);
}

/** Opens what the address carries; else what was written last, or else this example. */
async function openLink(otherwise) {
  try {
    const text = await carriedBy(location.hash), last = otherwise && kept();
    if (text !== null) openPlan({ text, title: isPlan(text) ? "The plan of a link." : "The script of a link." });
    else if (last) openPlan(plans.find((plan) => plan.text === last) ?? { text: last });
    else if (otherwise) openPlan(otherwise);
  } catch {
    openPlan({ text: otherwise?.text ?? editor.text, title: "The link of this page can't be read." });
  }
}

function say(place, kind, text) {
  place.className = kind;
  place.textContent = text;
}

// Keys and buttons

at("plan").addEventListener("input", changed);
at("open").addEventListener("click", () => menu.open());
at("run").addEventListener("click", () => look({ runs: true }));
at("link").addEventListener("click", link);
at("stop").addEventListener("click", stop);
at("visit").addEventListener("click", () => editor.visit());
at("enlarge").addEventListener("click", () => {
  const isLarge = document.body.classList.toggle("large");
  at("enlarge").ariaPressed = isLarge;
  at("enlarge").textContent = isLarge ? "Shrink" : "Enlarge";
});
split(at("split-text"), document.querySelector("main"), "--text");
split(at("split-rows"), at("trace"), "--rows");
addEventListener("hashchange", () => openLink(null));
addEventListener("keydown", (event) => {
  const meant = { Enter: event.ctrlKey || event.metaKey ? () => look({ runs: true }) : null, F8: () => editor.visit() }[event.key];
  if (!meant || at("menu").open) return;
  event.preventDefault();
  meant();
});
linkDocuments(document.querySelectorAll(".document"), location);
openLink(plans[0]);
