// Random scripts that ask for what an engine may choose, beside node: what the page says that every engine prints, node prints
// too, in the same order, once as it collects if it is asked, and once if nothing is ever collected.
//
// Usage: node --expose-gc page_surely.mjs COUNT SEED [--all]. Prints what fails, how many lines were looked at and how many differ
// between the two runs, and `N passed, M failed`. With --all every line is taken for one that every engine prints: then it fails.

import { setFlagsFromString } from "node:v8";
import { Dice } from "./random_scripts.mjs";
import { linesOnNode } from "./scripts_node.mjs";

setFlagsFromString("--experimental-wasm-memory64");
const engine = await import("../../play/clusterrun.mjs");
const { scriptRun } = await import("../../play/page/scripting.mjs");
const [count, seed] = process.argv.slice(2).map(Number);
const isAll = process.argv.includes("--all");
const collect = globalThis.gc;

const HEAD = `let a = {}, b = {}, c = {}, x, y, n = 0, m = 0, o = {}, r = new WeakRef(a);
const list = [], w = new WeakMap(), s = new WeakSet(), t = {};
const g = new FinalizationRegistry((held) => { m += 1; });
const loud = new FinalizationRegistry((held) => console.log("called", held));
function gone() { if (r.deref()) return "there"; return "gone"; }
const there = () => r.deref() !== undefined;
function note(what) { console.log(what); }
function put(o, what) { try { w.set(o, 2); } catch { return what + " caught"; } return what; }
`;
/** Reads all variables. Where it is left out, an engine may let go of what nothing reads any more. */
const TAIL = 'console.log("end", [a, b, c, x, y, o, r, list, w, s, t, g, loud].length);\n';
/** Statements; each # is a number that no other line has. */
const STATEMENTS = [
  "a = {};", "b = a;", "a = null;", "b = null;", "c = a;", "c = null;", "r = new WeakRef(a ?? {});", "r = new WeakRef({});", "await turn();",
  "gc();", "await turn(); gc();", "await turn(); gc(); await turn();", "await null;",
  // These make what is asked for differ.
  ...Array(2).fill(["a = null; await turn(); gc();", "r = new WeakRef({}); await turn(); gc();", "a = b = c = null; await turn(); gc(); await turn();",
    'loud.register({}, "#"); g.register({}, 1); await turn(); gc(); await turn();']).flat(),
  'console.log("#", r.deref() === undefined);', 'console.log("#", r.deref() === a);', "x = r.deref();", "y = x;", "x = undefined;",
  'console.log("#", x === undefined, y === undefined);', 'if (x) console.log("#");', 'if (r.deref()) console.log("#"); else console.log("#", 0);',
  "if (r.deref()) n += 1;", "n += r.deref() ? 1 : 0;", 'console.log("#", n);', 'console.log("#", m);', "o.p = r.deref();", 'console.log("#", o.p === undefined);',
  'console.log("#", gone());', 'console.log("#", there());', 'note("#");', "note(there());", "list.push(r.deref());", 'console.log("#", list.length, list[0] === undefined);',
  "g.register(a ?? {}, 1);", 'loud.register(a ?? {}, "#", t);', 'console.log("#", loud.unregister(t));', "loud.unregister(t);",
  'console.log("#");', 'console.log("#", a === b);', "w.set(a ?? t, 1);", 'console.log("#", w.has(a ?? t), w.get(b ?? t));', "s.add(a ?? t);",
  'console.log("#", s.has(b ?? t));', 'for (let i = 0; i < 2; i++) console.log("#", i, r.deref() === undefined);',
  'try { r.deref().z = 1; console.log("#"); } catch { console.log("#", "caught"); }', "const #v = r.deref();",
  // These are refused, or not, and caught.
  'try { new WeakRef(r.deref()); console.log("#"); } catch { console.log("#", "caught"); }', 'try { s.add(x); console.log("#"); } catch { console.log("#", "caught"); }',
  'note(put(y, "#"));', 'console.log("#", put(r.deref(), "put"));',
  'try { new WeakRef(5); } catch (e) { console.log("#", e.name); } finally { console.log("#"); }', "await (async () => { s.add(x); })().catch(() => { n += 1; });",
];

function choosingScript(dice) {
  let number = 0;
  const numbered = (text) => text.replace(/#(v?)/g, (_, isName) => `${isName}${(number += 1)}`);
  const statements = Array.from({ length: 8 + dice.below(16) }, () => `${numbered(dice.one(STATEMENTS))}\n`);
  const all = HEAD + statements.join("") + (dice.below(2) ? TAIL : "");
  return dice.below(2) ? all : `async function whole() {\n${all}}\nawait whole();\n`;
}

/** The first line of some that the others do not have after those before it; undefined if they have all. */
function missing(lines, others) {
  let from = 0;
  return lines.find((line) => {
    const place = others.indexOf(line, from);
    from = place + 1;
    return place < 0;
  });
}

const totals = { passed: 0, failed: 0, sure: 0, lines: 0, differing: 0 };

async function attempt(number) {
  const source = choosingScript(new Dice(number));
  const { lines, fault } = scriptRun(source, engine, {});
  if (fault) throw new Error(`${fault.message}\n${source}`);
  const surely = lines.filter(({ may }) => isAll || may === null).map(({ text }) => text);
  totals.lines += lines.length;
  totals.sure += surely.length;
  const runs = [];
  for (const gc of [collect, () => {}]) {
    globalThis.gc = gc;
    // node does not run the same module twice.
    runs.push(await linesOnNode(`${source}// ${runs.length}`));
    const lacks = missing(surely, runs.at(-1));
    totals[lacks === undefined ? "passed" : "failed"] += 1;
    if (lacks !== undefined && !isAll) console.log(`FAILED: script ${number}: node (${runs.length}) does not print ${lacks}\n${source}`);
  }
  if (runs[0].join("\n") !== runs[1].join("\n")) totals.differing += 1;
}

for (let number = seed; number < seed + count; number += 1) await attempt(number);
console.log(`every engine prints ${totals.sure} of ${totals.lines} lines; ${totals.differing} of ${count} scripts say something else if nothing is collected`);
console.log(`${totals.passed} passed, ${totals.failed} failed`);
process.exit(totals.failed > 0 ? 1 : 0);
