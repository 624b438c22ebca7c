// What the calls of the module promise besides the answer: strings, bytes and plain objects, a limit of memory after which the next
// call begins anew, and what is no plan and no options. Prints each that is not kept, and `N passed, M failed` last.
//
// Usage: node page_calls.mjs CLUSTERRUN_MJS FOLDER. FOLDER has the examples.

import { readFileSync } from "node:fs";
import { pathToFileURL } from "node:url";
import { runInNewContext } from "node:vm";

const { run, check, trace, built } = await import(pathToFileURL(process.argv[2]));
const read = (name) => readFileSync(`${process.argv[3]}/${name}`);
let passed = 0, failed = 0;

function expect(what, got, wanted) {
  if (JSON.stringify(got) === JSON.stringify(wanted)) passed += 1;
  else {
    failed += 1;
    console.log(`FAILED: ${what}\n  wanted ${JSON.stringify(wanted).slice(0, 300)}\n  got ${JSON.stringify(got)?.slice(0, 300)}`);
  }
}

function thrown(call) {
  try {
    return call();
  } catch (error) {
    return error.constructor.name;
  }
}

const plan = read("first.json"), text = plan.toString(), good = { status: 0, text: read("first.report").toString() };
expect("bytes", run(plan), good);
expect("a string", run(text), good);
expect("an ArrayBuffer", run(Uint8Array.from(plan).buffer), good);
expect("a part of a buffer", run(Buffer.concat([Buffer.from("x"), plan, Buffer.from("x")]).subarray(1, -1)), good);
expect("a view of wider numbers", run(new DataView(Uint8Array.from(plan).buffer)), good);
expect("a check", check(text), { status: 0, text: "ok\n" });
const told = trace(plan).text.split("\n");
expect("a trace", [trace(plan).status, JSON.parse(told[0]), told.at(-1)], [0, { agent: "a", event: "job", job: 1 }, ""]);
expect("a trace of a fault", trace("[]"), { status: 1, text: "refused S2" });
const kept = (options) => trace(read("holds.json"), options).text.split("\n").filter((line) => line.includes('"event":"kept"')).length;
expect("a trace of all values", [kept({ all: true }) > kept(), kept({ all: false }), kept({ all: 1 })], [true, kept(), kept()]);
expect("no bytes", run(new Uint8Array()), { status: 1, text: "refused S1" });
expect("a string beyond ASCII", check(text.replace('"a"', '"é"')), { status: 1, text: "refused S5 agent 0" });
expect("a lone half of a pair", check('"\ud800'), { status: 1, text: "refused S1" });
const object = JSON.parse(text);
expect("a plain object", run(object), good);
expect("a check of one", check(object), { status: 0, text: "ok\n" });
expect("a trace of one", trace(object), trace(text));
expect("one of another realm", run(runInNewContext(`(${text})`)), good);
expect("one without a prototype", run(Object.assign(Object.create(null), object)), good);
expect("one with a fault", [run({}), check({ ...object, version: 4 })], [{ status: 1, text: "refused S2" }, { status: 1, text: "refused S3" }]);
expect("undefined in a command", check({ version: 1, agents: [{ name: "a", callbacks: {}, jobs: [{ run: [["let", "x", undefined]] }] }] }).status, 0);
const cycle = { version: 1 };
cycle.agents = cycle;
const others = [[], [object], new Map(), new Date(), Promise.resolve(text), () => object, new (class { version = 1; })(), { toJSON() {} }, cycle, { version: 1n }];
for (const wrong of [undefined, null, 1, 1n, true, Symbol.iterator, ...others]) {
  expect(`no plan: ${typeof wrong} ${wrong?.constructor?.name}`, thrown(() => run(wrong)), "TypeError");
}
expect("no options", [run(plan, null), run(plan, undefined), run(plan, {}), run(plan, { memory: undefined })], [good, good, good, good]);
expect("none of a trace", trace(plan, null), trace(plan));
for (const wrong of [0, 2 ** 26, "1", true, () => ({})]) {
  expect(`no options: ${String(wrong)}`, [run, check, trace].map((call) => thrown(() => call(plan, wrong))), ["TypeError", "TypeError", "TypeError"]);
}
for (const wrong of [-1, 1.5, NaN, "1", null]) {
  expect(`no memory: ${wrong}`, thrown(() => run(plan, { memory: wrong })), "RangeError");
}

// A report that is far longer than its plan, and one of which the plan is far longer.
const plain = (commands) => ({ version: 1, agents: [{ name: "a", callbacks: {}, jobs: [{ run: commands }] }] });
const long = JSON.stringify(plain([["let", "x", "y".repeat(256)], ...Array(5000).fill(["say", "x"])]));
const lines = `say "${"y".repeat(256)}"\n`.repeat(5000);
const end = "end live 0 awaiting 0 unregistered 0 taken 0\ncluster\nblocks 0 released 0\nmessages posted 0 taken 0 drained 0\n";
expect("a long report", run(long), { status: 0, text: `agent a\n${lines}${end}` });
expect("a short one", run(JSON.stringify(plain(Array(10000).fill(["new", "x"])))), { status: 0, text: `agent a\n${end}` });

// Memory that runs out, at each of some limits, and calls after it.
const heavy = JSON.stringify({ ...plain([]), agents: [{ name: "a", callbacks: {}, jobs: Array(8).fill({ run: Array(10000).fill(["new", "x"]) }) }] });
const mebi = 2 ** 20;
for (const memory of [0, mebi, 2 * mebi, 5 * mebi, 10 * mebi, 20 * mebi]) {
  expect(`${memory} bytes`, run(heavy, { memory }), { status: 3, text: "" });
  expect(`${memory} bytes of a trace`, trace(heavy, { memory }), { status: 3, text: "" });
  expect(`after ${memory} bytes`, run(plan), good);
}
// A heap of which each growth were a copy would take half a minute to come there.
const keys = [["new", "o"], ...Array.from({ length: 5000 }, (_, key) => ["set", "o", `k${key}`, "o"])];
const wide = { version: 1, agents: [{ name: "a", callbacks: {}, jobs: [{ run: keys }, { run: Array(10000).fill(["keys", "o"]) }] }] };
const begun = performance.now();
expect("256 MiB", run(JSON.stringify(wide), { memory: 256 * mebi }), { status: 3, text: "" });
expect("the time of 256 MiB", performance.now() - begun < 10000, true);
expect("enough", run(heavy), { status: 0, text: `agent a\n${end}` });
expect("after enough", run(plan), good);
for (let time = 0; time < 2000; time += 1) {
  if (run(plan).text !== good.text) expect("2,000 calls", run(plan), good);
}
expect("what is built", Object.keys(built), ["version", "commit", "kit"]);
console.log(`${passed} passed, ${failed} failed`);
process.exit(failed === 0 ? 0 : 1);
