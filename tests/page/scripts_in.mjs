// Scripts in JavaScript beside node, on which this runs: node --expose-gc scripts_in.mjs COUNT SEED FOLDER
//
// - The scripts of rows/javascript/constructs.js write the lines that node writes.
// - Those of rows/javascript/alone.js write the lines in their headings.
// - Each script of rows/javascript/outside.js has the fault that stands there, at its place.
// - The lessons write their lines, here and on node; what may differ is named in lines.json.
// - Each command has JavaScript that gives it in docs/PLANS.md, and what docs/SCRIPTS.md has beside that gives it too.
// - Plans of the corpus, written as scripts and read back, say what their reports say.
// - A script that needs it has a plan of a later version. A refusal that the script catches stands behind `try`, in plans that were
//   worked out by hand. Commands have their places in the script. Wrong guesses of what a collection empties are put right. A long
//   script takes some seconds.
// - COUNT random scripts say the same here and on node, but for what an engine may keep.
// The plans of the lessons and of the random scripts are put into the folder, for other tests. Prints what fails, and
// `N passed, M failed` last.

import { spawnSync } from "node:child_process";
import { readFileSync, readdirSync, writeFileSync } from "node:fs";
import { fileURLToPath } from "node:url";
import { setFlagsFromString } from "node:v8";
import { randomScript } from "./random_scripts.mjs";
import { documentsHold } from "./scripts_documented.mjs";
import { judge } from "./scripts_judge.mjs";
import { linesOnNode } from "./scripts_node.mjs";
import { NOT_AS_SCRIPTS, readBack } from "./scripts_read_back.mjs";

setFlagsFromString("--experimental-wasm-memory64");
const engine = await import("../../play/clusterrun.mjs");
const { planOf } = await import("../../play/script/plan_of.mjs");
const { assigns, isVariable } = await import("../../play/script/commands.mjs");
const { Machine } = await import("../../play/script/machine.mjs");
const { linesOf } = await import("../../play/script/lines.mjs");

const [count, seed, folder] = process.argv.slice(2);
const here = (path) => new URL(path, import.meta.url);
const say = (text) => process.stderr.write(`${text}\n`);
let passed = 0;
let failed = 0;

function check(holds, what) {
  if (holds) passed += 1;
  else {
    failed += 1;
    say(`FAILED: ${what}`);
  }
}

/** The lines of a script, and its plan; where there is none, why. Numbers of objects are left out, since node has none. */
function run(source) {
  try {
    const { text, trace, places } = planOf(source, { engine });
    return { text, lines: linesOf(trace, places).map((line) => line.text.replace(/\bobject \d+/g, "object")) };
  } catch (error) {
    return { text: null, lines: [`${error.name}: ${error.message}`], error };
  }
}

/** The parts of a file, each with its heading. */
function partsOf(name) {
  const parts = readFileSync(here(`../rows/javascript/${name}`), "utf8").split(/^\/\/\/ /m).slice(1);
  return parts.map((part) => [part.slice(0, part.indexOf("\n")), part.slice(part.indexOf("\n") + 1)]);
}

async function constructs() {
  for (const [name, source] of partsOf("constructs.js")) {
    const { lines } = run(source);
    const others = await linesOnNode(source);
    check(lines.join("\n") === others.join("\n"), `${name}: here ${JSON.stringify(lines)}, on node ${JSON.stringify(others)}`);
  }
}

/** What node has no order for, or can't show: the heading has the lines, which the rules of docs/PLANS.md give. */
function alone() {
  for (const [heading, source] of partsOf("alone.js")) {
    const { lines } = run(source);
    check(lines.join(" | ") === heading, `${source}: ${lines.join(" | ")}`);
  }
}

function outside() {
  for (const [heading, source] of partsOf("outside.js")) {
    const [message, place] = heading.split("|").map((part) => part.trim());
    const { error } = run(source);
    check(error?.name === "ScriptFault" && error.message.includes(message), `${heading}: ${error?.stack}`);
    const marked = source.slice(error?.start, error?.end);
    if (place) check(marked === place, `${heading}: marked is ${marked}`);
  }
}

/** What a lesson writes on node as its reader would run it. */
function onItsOwn(name) {
  const [prelude, lesson] = ["node.mjs", `${name}.js`].map((file) => fileURLToPath(here(`../../play/lessons/${file}`)));
  const { stdout } = spawnSync(process.execPath, ["--expose-gc", "--import", prelude, lesson], { encoding: "utf8" });
  return stdout.split("\n").slice(0, -1);
}

function lessons() {
  const wanted = JSON.parse(readFileSync(here("../../play/lessons/lines.json"), "utf8"));
  const names = readdirSync(here("../../play/lessons")).filter((name) => name.endsWith(".js")).map((name) => name.slice(0, -3));
  check(names.sort().join() === Object.keys(wanted).sort().join(), "each lesson has its lines");
  for (const name of names) {
    const { lines, text } = run(readFileSync(here(`../../play/lessons/${name}.js`), "utf8"));
    const { lines: told, may = [] } = wanted[name];
    check(JSON.stringify(lines) === JSON.stringify(told), `the lesson ${name}: ${JSON.stringify(lines)}`);
    const others = onItsOwn(name);
    const left = (all) => JSON.stringify(all.filter((line) => !may.includes(line)));
    check(left(others) === left(told), `the lesson ${name} on node: ${JSON.stringify(others)}`);
    writeFileSync(`${folder}/lesson-${name}.json`, text ?? "");
  }
}

/** Scripts and the versions of their plans. */
const VERSIONED = [
  ["const v = new Uint32Array(new SharedArrayBuffer(4)); Atomics.sub(v, 0, Atomics.add(v, 0, 1)); gc();", 1],
  ["collectLater();", 2],
  ["const v = new Uint32Array(new SharedArrayBuffer(4)); Atomics.or(v, 0, 1); collectLater();", 3],
  ["collectLater(); await turn(); const v = new Uint32Array(new SharedArrayBuffer(4)); Atomics.exchange(v, 0, 1);", 3],
  ["try { new WeakRef({}); null.x; } catch {}", 1],
  ["new WeakRef(5);", 1],
  ["try { new WeakRef(5); } finally {}", 3],
];

function versions() {
  for (const [source, wanted] of VERSIONED) {
    const { text } = run(source);
    check(text?.startsWith(`{"version": ${wanted},`), `the plan of ${source} is of version ${wanted}: ${text}`);
  }
}

/** What follows a refusal here: the script says why it goes on. */
const SAID = [["let", "_1", "no"], ["say", "_1"]];
/** Scripts that catch refusals, and the commands of all callbacks and jobs of their plans. */
const CATCHING = [
  ["try { new WeakRef(5); } catch {}", [[["let", "_2", 5], ["try", "_3", "weakref", "_1", "_2"]]]],
  ['let o = {}; const w = new WeakRef(o); await turn(); o = null; gc(); const m = w.deref(); try { new WeakRef(m); } catch { console.log("no"); }',
    [[["new", "o"], ["weakref", "w", "o"]], [["let", "o", null], ["collect"], ["deref", "m", "w"], ["try", "_2", "weakref", "_1", "m"], ...SAID]]],
  ['const o = {}, w = new WeakRef(o); let ref = null; try { ref = new WeakRef(w.deref()); } catch { console.log("no"); }',
    [[["new", "o"], ["weakref", "w", "o"], ["deref", "_1", "w"], ["weakref", "ref", "o"], ["let", "_1", null]]]],
  ['agent("a", async () => { postMessage(5, "b"); }); agent("b", async () => { const m = await message("a"), s = new WeakSet(); try { s.add(m); } catch { console.log("no"); } })',
    [[["let", "_1", 5], ["post", "b", "_1"]], [], [["weakset", "s"], ["try", "_1", "wsadd", "s", "m"], ...SAID]]],
  ['agent("a", async () => { try { postMessage({}, "b"); } catch { console.log("no"); } }); agent("b", async () => {});',
    [[["new", "_1"], ["try", "_2", "post", "b", "_1"], ["let", "_1", null], ...SAID], []]],
  ["const r = new FinalizationRegistry((h) => { try { new WeakRef(h); } catch { } }); r.register({}, 7); await turn(); gc();",
    [[["copy", "h", "held"], ["try", "_c2", "weakref", "_c1", "h"]],
      [["registry", "r", "cleanup"], ["new", "_1"], ["let", "_2", 7], ["register", "r", "_1", "_2"], ["let", "_1", null]], [["collect"]]]],
  ["const b = new SharedArrayBuffer(8), v = new Int32Array(b); try { Atomics.load(v, 2); } catch {} try { Atomics.store(v, -1, 6); } catch {} try { Atomics.sub(v, 3, 4); } catch {}",
    [[["buffer", "b", 2], ["copy", "v", "b"], ["try", "_2", "load", "_1", "b", 2], ["try", "_1", "store", "b", -1, 6], ["try", "_2", "add", "_1", "b", 3, -4]]]],
  ["const r = new FinalizationRegistry(() => {}), o = {}; const f = () => { r.register(o, 1, 2); }; try { f(); } catch {} try { r.unregister(3); } finally { r.register(o, o); }",
    [[], [["registry", "r", "cleanup"], ["new", "o"], ["let", "_1", 1], ["let", "_2", 2], ["try", "_3", "register", "r", "o", "_1", "_2"],
      ["let", "_2", 3], ["try", "_3", "unregister", "_1", "r", "_2"], ["register", "r", "o", "o"]]]],
  ["Promise.resolve().then(() => {}); new WeakRef(5);",
    [[["let", "_2", 5], ["try", "_3", "weakref", "_1", "_2"], ["let", "_1", "Uncaught TypeError: WeakRef: invalid target"], ["say", "_1"]]]],
];

function caught() {
  for (const [source, wanted] of CATCHING) {
    const { plan } = planOf(source, { engine });
    const found = plan.agents.flatMap(({ callbacks, jobs }) => [...Object.values(callbacks), ...jobs.map(({ run: commands }) => commands)]);
    check(JSON.stringify(found) === JSON.stringify(wanted), `the plan of ${source}: ${JSON.stringify(found)}`);
  }
}

/** Commands with the letters of the script from which they come. What only lets something go is not among them. */
const PLACED = [
  ["let key = {}; const ref = new WeakRef(key);", [["new", "{}"], ["weakref", "new WeakRef(key)"]]],
  ["const o = { p: {} }; console.log(o.p);", [["new", "{ p: {} }"], ["new", "{}"], ["set", "p: {}"], ["get", "o.p"], ["say", "console.log(o.p)"]]],
  ["let a = {}; a = null;", [["new", "{}"], ["let", "a"]]],
  ["gc(); new WeakMap().has({});", [["collect", "gc()"], ["weakmap", "new WeakMap()"], ["new", "{}"], ["wmhas", "new WeakMap().has({})"]]],
];

function marked() {
  for (const [source, wanted] of PLACED) {
    const { plan, places } = planOf(source, { engine });
    const at = places[0].jobs[0];
    const found = plan.agents[0].jobs[0].run.map(([word], number) => [word, at[number]]).filter(([, { temporary }]) => !temporary);
    const told = found.map(([word, { start, end }]) => [word, source.slice(start, end)]);
    check(JSON.stringify(told) === JSON.stringify(wanted), `the places of ${source}: ${JSON.stringify(told)}`);
  }
}

/** Where the guess of a collection is wrong, the engine's answer is taken. Here each guess is that nothing is emptied. */
function guessed() {
  const { empty } = Machine.prototype;
  Machine.prototype.empty = function wrongly(graph, more) {
    return empty.call(this, this.answers[this.collections] ? graph : { unreached: () => [] }, more);
  };
  const wanted = JSON.parse(readFileSync(here("../../play/lessons/lines.json"), "utf8"));
  for (const [name, { lines: told }] of Object.entries(wanted)) {
    const { lines } = run(readFileSync(here(`../../play/lessons/${name}.js`), "utf8"));
    check(JSON.stringify(lines) === JSON.stringify(told), `the lesson ${name} with wrong guesses: ${JSON.stringify(lines)}`);
  }
  Machine.prototype.empty = empty;
}

const MANY = `const refs = [];
for (let i = 0; i < 1000; i++) {
  const o = { i, own: { i } };
  refs.push(new WeakRef(o));
  if (refs[i].deref() === undefined) console.log("gone");
  if (i % 100 === 99) { await turn(); gc(); }
}
console.log(refs.filter((ref) => ref.deref()).length);`;
const SECONDS = 6;

/** A script of a thousand conditions, of ten collections and of more than 10,000 commands. The last object is still held. */
function timed() {
  const before = process.cpuUsage();
  const { lines, text } = run(MANY);
  const { user, system } = process.cpuUsage(before);
  check(lines.join() === "1" && text.match(/^ *\["/gm).length > 10000, `the long script: ${lines}`);
  check((user + system) / 1e6 < SECONDS, `the long script took ${(user + system) / 1e6} seconds of a processor`);
}

/** What the interpreter knows of the operands of commands is what commands.json says. */
function operands() {
  for (const [word, { operands: uses, and = "" }] of Object.entries(JSON.parse(readFileSync(here("../rows/commands.json"), "utf8")))) {
    if (word === "try") continue;
    const all = [...uses + and], areVariables = (operands, letters) => all.every((use, place) => (
      [[word], ["try", "caught", word]].every((words) => isVariable([...words, ...operands], words.length + place) === letters.includes(use))));
    check(areVariables(all.map((use, place) => `${use}${place}`), "xvohwmsrbinpq"), `the variables of ${word}`);
    check(areVariables(all.map((use, place) => ("inpq".includes(use) ? place : use)), "xvohwmsrb"), `the variables of ${word} beside numbers`);
    check(assigns([word, "name"], "name") === uses.startsWith("x"), `whether ${word} assigns`);
  }
}

/** The tables of docs/PLANS.md and docs/SCRIPTS.md, and the first plan of SCRIPTS. */
function documented() {
  for (const { holds, what } of documentsHold((source) => run(source).text)) check(holds, what);
}

/** The plans of the corpus as scripts. The documents say how many are read back. */
function corpus() {
  let count = 0;
  let back = 0;
  for (const { name, found, wanted } of readBack({ engine, planOf, linesOf })) {
    const isSame = found === wanted;
    check(isSame !== name in NOT_AS_SCRIPTS, `${name} as a script: ${found}, and its report says ${wanted}`);
    count += 1;
    back += isSame;
  }
  for (const page of ["docs/SCRIPTS.md", "tests/README.md"]) {
    check(readFileSync(here(`../../${page}`), "utf8").includes(`${back} of the ${count} plans of the corpus`), `${page} says how many plans are read back`);
  }
  say(`${back} of the ${count} plans of the corpus were written as scripts and read back; not so were`);
  for (const [name, why] of Object.entries(NOT_AS_SCRIPTS)) say(`  ${name}: ${why}`);
}

async function random() {
  const found = { same: 0, retained: 0 };
  for (let number = Number(seed); number < Number(seed) + Number(count); number += 1) {
    const source = randomScript(number);
    const { lines, text, error } = run(source);
    const verdict = error ? error.stack : judge(lines, await linesOnNode(source), `s${number}`);
    check(verdict in found, `the random script ${number}: ${verdict}`);
    if (verdict in found) found[verdict] += 1;
    writeFileSync(`${folder}/random-${number}.json`, text ?? "");
  }
  say(`of ${count} random scripts ${found.same} said the same on node, and in ${found.retained} node kept more`);
}

await constructs();
alone();
outside();
lessons();
operands();
documented();
corpus();
versions();
caught();
marked();
guessed();
timed();
await random();
say(`${passed} passed, ${failed} failed`);
process.exit(failed > 0 ? 1 : 0);
