/// a regular expression | /a/
const r = /a/;
/// BigInt | 1n
const n = 1n;
/// Proxy | Proxy
const p = new Proxy({}, {});
/// clock | Date
console.log(Date.now());
/// import | import("x")
const m = await import("x");
/// import | import fs from "fs";
import fs from "fs";
/// export | export const a = 1;
export const a = 1;
/// eval | eval
eval("1");
/// as a whole | new Function("return 1")
new Function("return 1");
/// tagged template | String.raw`x`
String.raw`x`;
/// Math.random | Math.random()
console.log(Math.random());
/// no page | document
document.title = "x";
/// no page | window
window.x = 1;
/// connection | fetch
fetch("x");
/// one file | require
require("fs");
/// write agent( | Worker
new Worker("x.js");
/// write Uint32Array | new Uint8Array(4)
new Uint8Array(4);
/// write SharedArrayBuffer | ArrayBuffer
new ArrayBuffer(8);
/// over a SharedArrayBuffer | new Uint32Array(4)
new Uint32Array(4);
/// 4 divides | new SharedArrayBuffer(6)
new SharedArrayBuffer(6);
/// 16,384 words | new SharedArrayBuffer(4 * 16385)
new SharedArrayBuffer(4 * 16385);
/// plans load, store and change words | Atomics.isLockFree(4)
Atomics.isLockFree(4);
/// plans load, store and change words, and sleep at them | Atomics.waitAsync(v, 0, 1)
const v = new Int32Array(new SharedArrayBuffer(4)); Atomics.waitAsync(v, 0, 1);
/// a plan's wait lasts until no other agent goes on | Atomics.wait(v, 0, 0, -1)
const v = new Int32Array(new SharedArrayBuffer(4)); Atomics.wait(v, 0, 1, 0); Atomics.wait(v, 0, 0, -1);
/// it is its buffer | new WeakRef(v)
const v = new Uint32Array(new SharedArrayBuffer(4)); new WeakRef(v);
/// in jobs alone | gc()
const registry = new FinalizationRegistry(() => gc()); registry.register({}, 1); await turn(); gc(); await turn();
/// a plan refuses another one | gc()
collectLater(); gc();
/// can't be changed here | Array.prototype.last
Array.prototype.last = function () { return this.at(-1); };
/// __proto__ | __proto__: null
const o = { __proto__: null };
/// more than 100 times | setInterval(() => {}, 10)
setInterval(() => {}, 10);
/// goes on for too long | 
let i = 0; while (true) i++;
/// more than 1,000 jobs | 
for (;;) await turn();
/// more than 10,000 commands | { i }
for (let i = 0; i < 20000; i++) { const o = { i }; }
/// another agent | o
const o = {}; agent("b", async () => { console.log(o); });
/// no agent has this name | postMessage(1, "nobody")
postMessage(1, "nobody");
/// two agents | agent("b", async () => {})
agent("b", async () => {}); agent("b", async () => {});
/// write agent( | agent("c", 5)
agent("c", 5);
/// letters, digits | agent("no name", async () => {})
agent("no name", async () => {});
/// outside of other agents | agent("c", async () => {})
agent("b", async () => { agent("c", async () => {}); });
/// 8 agents | agent("a" + i, async () => {})
for (let i = 0; i < 9; i++) agent("a" + i, async () => {});
/// a second operand | JSON.stringify({}, ["a"])
JSON.stringify({}, ["a"]);
/// on arrays alone | Array.prototype.map.call({ length: 1 }, (x) => x)
Array.prototype.map.call({ length: 1 }, (x) => x);
/// can't stand here | ;
const x = ;
/// matchAll is not taken | "x".matchAll
"x".matchAll("x");
/// __defineGetter__ is not taken | o.__defineGetter__
const o = {}; o.__defineGetter__("x", () => 1);
/// atan2 is not taken | Math.atan2
Math.atan2(1, 2);
/// write (...all) | arguments
function f() { return arguments.length; } f(1, 2);
/// map is not taken | v.map
const v = new Uint32Array(new SharedArrayBuffer(4)); v.map((n) => n);
/// no messages with itself | postMessage(1, "a")
agent("a", async () => { postMessage(1, "a"); });
/// no messages with itself | message("main")
await message("main");
/// write postMessage(value | onmessage
onmessage = ({ data }) => console.log(data);
/// write postMessage(value | self
self.onmessage = ({ data }) => console.log(data);
/// write postMessage(value | MessageChannel
const { port1, port2 } = new MessageChannel();
/// write postMessage(value | addEventListener
agent("a", async () => { addEventListener("message", () => {}); });
/// make it within the agent | names
const names = ["x"]; agent("a", async () => { console.log(names.length); });
/// send it with postMessage | words
const words = new Uint32Array(new SharedArrayBuffer(4)); agent("a", async () => { console.log(words[0]); });
/// make it within the agent | f.calls
function f() {} f.calls = 0; agent("a", async () => { f.calls++; });
/// waits for a message | turn()
agent("a", async () => { const flag = new Int32Array(new SharedArrayBuffer(4)); postMessage(flag.buffer, "b"); while (Atomics.load(flag, 0) === 0) await turn(); }); agent("b", async () => { Atomics.store(new Int32Array(await message("a")), 0, 1); });
/// more than 10,000 commands | Atomics.compareExchange(lock, 0, 0, 1)
agent("a", async () => { const lock = new Int32Array(new SharedArrayBuffer(4)); lock[0] = 1; while (Atomics.compareExchange(lock, 0, 0, 1) !== 0); });
/// send it with postMessage | n
let n = 1; agent("a", async () => { console.log(n); }); n = 2;
/// belongs to another agent | n
let n = 1; agent("a", async () => { n++; });
/// make it within the agent | Cache
class Cache { static all = new Map(); } agent("a", async () => { console.log(Cache.all.size); });
/// make it within the agent | next
function counter() { let n = 0; return () => ++n; } const next = counter(); agent("a", async () => { console.log(next()); });
/// make it within the agent | go
let go; const p = new Promise((act) => (go = act)); agent("a", async () => { go(5); });
/// Proxy is not taken | Proxy
function f() { try { new Proxy({}, {}); } finally { return 5; } } f();
/// BigInt is not taken | BigInt
const all = { [Symbol.iterator]: () => ({ next: () => ({ value: 1, done: false }), return() { throw 1; } }) }; try { for (const x of all) BigInt(x); } catch {}
/// a symbol of the language | new WeakRef(Symbol.iterator)
try { new WeakRef(Symbol.iterator); } catch {}
/// posts 10,000 messages | postMessage(i, "b")
agent("b", async () => {}); for (let i = 0; ; i++) { postMessage(i, "b"); if (i % 4000 === 3999) await turn(); }
