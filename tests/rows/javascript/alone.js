/// Uncaught TypeError: cannot be held weakly
new WeakRef(1); console.log("never");
/// Uncaught TypeError: cannot be held weakly | next
function f() { const s = new WeakSet(); s.add({}); s.add(5); } setTimeout(() => console.log("next"), 1); f();
/// before 1 | Uncaught TypeError: cannot be held weakly | before 2 | Uncaught TypeError: cannot be held weakly | after
const r = new FinalizationRegistry((h) => { console.log("before", h); new WeakRef(h); }); r.register({}, 1); r.register({}, 2); await turn(); gc(); await turn(); console.log("after");
/// Uncaught Error: x1 | Uncaught Error: x2 | after
const r = new FinalizationRegistry((h) => { throw new Error("x" + h); }); r.register({}, 1); r.register({}, 2); await turn(); gc(); await turn(); console.log("after");
/// Uncaught RangeError: index | next
const v = new Uint32Array(new SharedArrayBuffer(4)); setTimeout(() => console.log("next"), 1); Atomics.load(v, 7);
/// Uncaught RangeError: index | Uncaught RangeError: index | 6 6
const v = new Int32Array(new SharedArrayBuffer(8)); v.fill(6); setTimeout(() => Atomics.compareExchange(v, -1, 6, 7), 1); setTimeout(() => console.log(...v), 2); Atomics.exchange(v, 2, { valueOf() { console.log("never"); } });
/// TypeError | TypeError | RangeError | RangeError | 12 12
const b = new SharedArrayBuffer(8), v = new Int32Array(b); v.fill(12); for (const [view, at] of [[b, 0], [[12], 0], [v, 2], [v, -1]]) try { Atomics.and(view, at, 10); } catch (e) { console.log(e.name); } console.log(...v);
/// 12 8 11 13 | 13 -1 4294967295 5
const b = new SharedArrayBuffer(4), s = new Int32Array(b), u = new Uint32Array(b); u[0] = 12; console.log(Atomics.and(u, 0, 10), Atomics.or(s, 0, 3), Atomics.xor(u, 0, 6), s[0]); console.log(Atomics.exchange(s, 0, -1), s[0], Atomics.exchange(u, 0, 2 ** 32 + 5), s[0]);
/// -1 4294967294 | -2 4294967295 | -1 2147483648 -2147483648
const b = new SharedArrayBuffer(4), s = new Int32Array(b), u = new Uint32Array(b); s[0] = -1; console.log(Atomics.and(s, 0, -2), u[0]); console.log(Atomics.xor(s, 0, 2 ** 32 + 1), u[0]); console.log(Atomics.and(s, 0, 2 ** 31), Atomics.or(u, 0, -(2 ** 31)), s[0]);
/// 5 7 | 7 7 | 7 -1 | 4294967295 2 | 2 2 | 2 4294967295
const b = new SharedArrayBuffer(4), s = new Int32Array(b), u = new Uint32Array(b); u[0] = 5; for (const [view, expected, next, other] of [[u, 5, 7, s], [u, 5, 9, s], [s, 2 ** 32 + 7, -1, s], [u, -1, 2 ** 32 + 2, u], [s, 3, 4, u], [s, 2, -1, u]]) console.log(Atomics.compareExchange(view, 0, expected, next), other[0]);
/// DataCloneError | Uncaught DataCloneError: value cannot be posted | ok
agent("b", async () => { console.log(await message("main")); }); try { postMessage({}, "b"); } catch (e) { console.log(e.name); } postMessage("ok", "b"); postMessage({}, "b");
/// Symbol(k) true | next
agent("a", async () => { postMessage(Symbol.for("k"), "b"); }); agent("b", async () => { const s = await message("a"); console.log(s, s === Symbol.for("k")); console.log("next"); });
/// Uncaught TypeError: not a SharedArrayBuffer | next
const b = new SharedArrayBuffer(4); setTimeout(() => console.log("next"), 1); sameBlock(b, {});
/// waits
agent("b", async () => { console.log("waits"); await message("main"); console.log("never"); });
/// a begins | b begins
agent("a", async () => { console.log("a begins"); await message("b"); console.log("never"); }); agent("b", async () => { console.log("b begins"); await message("a"); console.log("never"); });
/// Uncaught (in promise) Error: lost | later
Promise.reject(new Error("lost")); setTimeout(() => console.log("later"), 1);
/// null | 1.5 | undefined | é
const told = new FinalizationRegistry((held) => console.log(held)); for (const held of [null, 1.5, undefined, "é"]) told.register({}, held); await turn(); gc();
/// Symbol(k) | undefined
let s = Symbol("k"); const r = new WeakRef(s); console.log(r.deref()); s = null; await turn(); gc(); console.log(r.deref());
/// object | undefined
let o = {}; const r = new WeakRef(o); await turn(); o = null; collectLater(); console.log(typeof r.deref()); await turn(); collectLater(); await turn(); console.log(r.deref());
/// first | second
const a = new FinalizationRegistry((h) => console.log(h)), b = new FinalizationRegistry((h) => console.log(h)); b.register({}, "second"); a.register({}, "first"); await turn(); gc();
/// gone b | gone a | 1
const gone = [], r = new FinalizationRegistry((h) => { gone.push(h); if (gone.length === 1) console.log("gone", h); else console.log(`gone ${h}`); }); let x = {}, y = {}; r.register(x, "a"); r.register(y, "b"); await turn(); y = null; gc(); await turn(); x = null; gc(); await turn(); console.log(gone.length - 1);
/// called 3 { }
function watch(target) { const own = {}, list = [1, 2, 3]; new FinalizationRegistry(() => console.log("called", list.length, own ? "{ }" : "")).register(target, 1); } let x = {}; watch(x); await turn(); x = null; gc();
/// 1 gone | 12 12 | 1
agent("owner", async () => { let buffer = new SharedArrayBuffer(8); const ref = new WeakRef(buffer); postMessage(buffer, "user"); buffer = null; await turn(); gc(); console.log(1, ref.deref() === undefined ? "gone" : "there"); console.log(await message("user"), await message("user")); console.log(await message("user")); });
agent("user", async () => { let words = new Uint32Array(await message("owner")); const ref = new WeakRef(words.buffer); words[0] = 7; words[1] += 5; postMessage(words[0] + words[1], "owner"); postMessage(words.reduce((a, b) => a + b), "owner"); words = null; await turn(); gc(); postMessage(ref.deref() === undefined ? 1 : 0, "owner"); });
/// did go true | 0
agent("page", async () => { const cache = new Map(), registry = new FinalizationRegistry((key) => { if (!cache.get(key)?.deref()) cache.delete(key); }); let image = { pixels: 100 }; cache.set("image", new WeakRef(image)); registry.register(image, "image"); postMessage("go", "worker"); console.log(await message("worker"), cache.get("image")?.deref() === image); image = null; postMessage("again", "worker"); await message("worker"); gc(); await turn(); console.log(cache.size); });
agent("worker", async () => { for (let i = 0; i < 2; i++) postMessage(`did ${await message("page")}`, "page"); });
/// ticket 1 2 | late
agent("a", async () => { setTimeout(() => console.log("late"), 1); const [one, two] = [await message("b"), await message("b")]; console.log("ticket", one, two); });
agent("b", async () => { await turn(); postMessage(1, "a"); await turn(); await turn(); postMessage(2, "a"); });
/// a lost 1 | b lost 2 | b ends | function true
const registryOf = (name) => new FinalizationRegistry((held) => console.log(name, "lost", held)); agent("a", async () => { const r = registryOf("a"); r.register({}, 1); const own = registryOf; await turn(); gc(); await message("b"); console.log(typeof own, new WeakRef(registryOf).deref() === own); }); agent("b", async () => { const r = registryOf("b"); r.register({}, 2); await turn(); gc(); await turn(); console.log("b ends"); postMessage(1, "a"); });
/// undefined undefined
let F = function () {}, o = new F(); const w = new WeakRef(F), p = new WeakRef(F.prototype); F = null; o = null; await turn(); gc(); console.log(w.deref(), p.deref());
/// closed | Uncaught TypeError: WeakRef: invalid target | next
function* own() { try { yield 1; } finally { console.log("closed"); } } const all = own(); setTimeout(() => console.log("next"), 9); setTimeout(() => { for (const x of all) new WeakRef(x); }, 1);
/// last | Uncaught TypeError: Invalid value used in weak set | next
setTimeout(() => console.log("next"), 1); try { throw 1; } catch { new WeakSet().add(5); } finally { console.log("last"); }
/// TypeError: Invalid unregisterToken ('5') | TypeError: Invalid unregisterToken ('Symbol(k)') | TypeError: WeakRef: invalid target
const r = new FinalizationRegistry(() => {}); for (const f of [() => r.register({}, 1, 5), () => r.unregister(Symbol.for("k")), () => new WeakRef()]) try { f(); } catch (e) { console.log(`${e}`); }
/// TypeError 1 | TypeError 2 | weak
const r = new FinalizationRegistry((h) => { try { new WeakRef(h); console.log("weak"); } catch (e) { console.log(e.name, h); } }); for (const h of [1, 2, {}]) r.register({}, h); await turn(); gc();
/// Uncaught TypeError: WeakRef: invalid target | Uncaught (in promise) Error: lost
Promise.reject(new Error("lost")); new WeakRef(1);
/// Uncaught TypeError: WeakRef: invalid target | Uncaught TypeError: Invalid value used in weak set | 1 | undefined
let o = { n: 1 }; const w = new WeakRef(o); queueMicrotask(() => new WeakSet().add(5)); queueMicrotask(() => { o = null; gc(); console.log(w.deref()?.n); }); setTimeout(() => { gc(); console.log(w.deref()); }, 1); new WeakRef(5);
/// 1 | Uncaught (in promise) TypeError: WeakRef: invalid target
const r = new FinalizationRegistry(async (h) => { console.log(h); new WeakRef(h); }); r.register({}, 1); await turn(); gc();
/// b woke 1 0 | a waits ok | a sees 7 | again not-equal | alone timed-out
agent("a", async () => { const b = new SharedArrayBuffer(8), v = new Int32Array(b); postMessage(b, "b"); console.log("a waits", Atomics.wait(v, 0, 0)); console.log("a sees", Atomics.load(v, 1)); console.log("again", Atomics.wait(v, 0, 0)); console.log("alone", Atomics.wait(v, 0, 1)); });
agent("b", async () => { const v = new Int32Array(await message("a")); Atomics.store(v, 1, 7); Atomics.store(v, 0, 1); console.log("b woke", Atomics.notify(v, 0), Atomics.notify(v, 0, 1)); });
/// timed-out | woke 1 | ok
agent("a", async () => { const v = new Int32Array(new SharedArrayBuffer(4)); postMessage(v, "b"); console.log(Atomics.wait(v, 0, 0)); console.log("woke", Atomics.notify(v, 0)); });
agent("b", async () => { const v = new Int32Array(await message("a")); console.log(Atomics.wait(v, 0, 0)); });
/// w wakes 1 | ok | w wakes 1 | ok | w wakes 1 | callback 5 ok | RangeError | w wakes 1 | then ok
const v = new Int32Array(new SharedArrayBuffer(16)); agent("w", async () => { const all = new Int32Array(await message("main")); for (const i of [0, 1, 2, 3]) { console.log("w wakes", Atomics.notify(all, i, 1)); await turn(); } });
postMessage(v, "w"); function* two() { yield Atomics.wait(v, 0, 0); yield Atomics.wait(v, 1, 0, 1000); } for (const one of two()) console.log(one);
const r = new FinalizationRegistry((held) => console.log("callback", held, Atomics.wait(v, 2, 0))); r.register({}, 5); await turn(); gc(); await turn();
Promise.resolve().then(() => console.log("then", Atomics.wait(v, 3, 0))); try { Atomics.wait(v, 9, 0); } catch (e) { console.log(e.name); }
/// begins | goes on ok | ok 2
agent("a", async () => { const v = new Int32Array(new SharedArrayBuffer(8)); postMessage(v, "b"); const f = async () => { console.log("begins"); return Atomics.wait(v, 1, 0); }; console.log("goes on", await f());
async function* two() { yield Atomics.wait(v, 0, 0); yield 2; } const all = []; for await (const x of two()) all.push(x); console.log(...all); });
agent("b", async () => { const v = new Int32Array(await message("a")); Atomics.notify(v, 1); await turn(); Atomics.notify(v, 0); });
