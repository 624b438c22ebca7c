/// var is hoisted
console.log(typeof a);
var a = 1;
console.log(a);
/// let and const have blocks
let x = 1;
{ let x = 2; console.log(x); { const x = 3; console.log(x); } }
console.log(x);
/// a variable before its declaration
try { console.log(y); } catch (e) { console.log(e.name); }
let y = 2;
console.log(y);
/// a constant is not assigned
const c = 1;
try { c = 2; } catch (e) { console.log(e.name, e.message); }
console.log(c);
/// an unknown name
try { nobody; } catch (e) { console.log(e.name, e.message); }
console.log(typeof nobody);
/// if and else
for (const n of [0, 1, 2]) if (n === 0) console.log("none"); else if (n === 1) console.log("one"); else console.log("many");
/// while and do
let n = 3;
while (n > 0) { console.log(n); n -= 1; }
do { console.log("once", n); } while (n > 0);
/// for with parts left out
let k = 0;
for (;;) { if (k === 3) break; k++; }
console.log(k);
/// for over two variables
for (let i = 0, j = 5; i < j; i++, j--) console.log(i, j);
/// continue
for (let i = 0; i < 5; i++) { if (i % 2) continue; console.log(i); }
/// labels
outer: for (const a of [1, 2, 3]) { for (const b of [1, 2, 3]) { if (b === 2) continue outer; if (a === 3) break outer; console.log(a, b); } }
/// a labelled block
done: { console.log("in"); if (true) break done; console.log("never"); }
console.log("out");
/// switch falls through
for (const v of [1, 2, 3, 9]) { switch (v) { case 1: console.log("one"); break; case 2: console.log("two"); case 3: console.log("three"); break; default: console.log("other"); } }
/// switch with default first
switch (5) { default: console.log("default"); case 1: console.log("one"); break; case 2: console.log("two"); }
/// for in
const sized = { b: 1, a: 2, 1: "x", 0: "y" };
for (const key in sized) console.log(key, sized[key]);
/// for in goes up the prototypes
const base = { inherited: 1 };
const own = Object.create(base);
own.own = 2;
for (const key in own) console.log(key);
/// for of a text
for (const letter of "añb") console.log(letter);
/// arithmetic
console.log(1 + 2, 7 - 10, 3 * 4, 7 / 2, 7 % 4, -7 % 4, 2 ** 10, 0.1 + 0.2);
/// bits
console.log(5 & 3, 5 | 3, 5 ^ 3, ~5, 1 << 4, -16 >> 2, -16 >>> 28);
/// comparisons
console.log(1 < 2, "a" < "b", "10" < "9", 10 < "9", 2 <= 2, 3 > 4, null >= 0, undefined == null, NaN === NaN, NaN != NaN);
/// loose equality
console.log(1 == "1", 0 == "", null == 0, [] == "", true == 1, undefined == 0);
/// logic
console.log(0 || "a", 1 && "b", null ?? "c", 0 ?? "d", !0, !!"x");
/// logical assignment
let l1 = null, l2 = 0, l3 = 1;
l1 ??= "a"; l2 ||= "b"; l3 &&= "c";
console.log(l1, l2, l3);
/// compound assignment
let q = 10; q += 5; q -= 3; q *= 2; q /= 4; q **= 2; q %= 7; q <<= 2; q |= 1; console.log(q);
/// increments
let i = 5; console.log(i++, i, ++i, i--, --i);
/// typeof
console.log(typeof 1, typeof "", typeof true, typeof undefined, typeof null, typeof {}, typeof [], typeof (() => {}), typeof Symbol(), typeof class {});
/// void and comma
console.log(void 0, (1, 2, 3));
/// conditional
console.log(true ? "yes" : "no", 0 ? "yes" : "no");
/// templates
const who = "world";
console.log(`hello ${who}, ${1 + 1} ${`nested ${who}`}`, `a
b`.length);
/// numbers as texts
console.log(String(1e21), String(1e-7), String(-0), 1 / 3, 255 .toString(16), (3.14159).toFixed(2), Number("12"), Number("x"), Number(""), parseInt("12px", 10));
/// special numbers
console.log(1 / 0, -1 / 0, 0 / 0, -0, Number.MAX_SAFE_INTEGER, Number.isInteger(5.0), Number.isNaN(NaN));
/// texts
console.log("abc".toUpperCase(), "abc".length, "abc"[1], "abc".at(-1), "a,b,c".split(","), "abc".slice(1), "  x ".trim(), "ab".repeat(2), "abc".includes("b"), "x".padStart(3, "0"));
/// more texts
console.log("hello".indexOf("l"), "hello".lastIndexOf("l"), "a-b-a".replace("a", "c"), "a-b-a".replaceAll("a", "c"), "abc".charCodeAt(0), "abc".startsWith("ab"), "abc".endsWith("c"));
/// concatenation
console.log("a" + 1 + 2, 1 + 2 + "a", "a" + null + undefined + true, [1, 2] + "", {} + "");
/// math
console.log(Math.max(1, 5, 3), Math.min(), Math.floor(-1.5), Math.round(2.5), Math.trunc(-1.5), Math.abs(-3), Math.sign(-3), Math.sqrt(16));
/// functions
function add(a, b) { return a + b; }
const twice = function (f) { return (x) => f(f(x)); };
console.log(add(1, 2), twice((x) => x * 3)(2), add.name, add.length);
/// function declarations are hoisted
console.log(early());
function early() { return "early"; }
/// defaults and rest
function many(a, b = a + 1, ...rest) { return [a, b, rest.length]; }
console.log(many(1), many(1, 2), many(1, 2, 3, 4), many(1, undefined, 5), many.length);
/// recursion
const fact = (n) => (n < 2 ? 1 : n * fact(n - 1));
function fib(n) { return n < 2 ? n : fib(n - 1) + fib(n - 2); }
console.log(fact(10), fib(10));
/// mutual recursion
const even = (n) => (n === 0 ? true : odd(n - 1)), odd = (n) => (n === 0 ? false : even(n - 1));
console.log(even(7), odd(7));
/// a named function expression
const f = function inner(n) { return n === 0 ? "end" : inner(n - 1); };
console.log(f(3), f.name, typeof inner);
/// closures count
function counter() { let count = 0; return { up: () => ++count, down: () => --count, get value() { return count; } }; }
const c1 = counter(), c2 = counter();
c1.up(); c1.up(); c2.down();
console.log(c1.value, c2.value);
/// closures of a loop
const fs = [];
for (let i = 0; i < 3; i++) fs.push(() => i);
for (var j = 0; j < 3; j++) fs.push(() => j);
console.log(fs.map((f) => f()));
/// closures of for of
const gs = [];
for (const o of [{ n: 1 }, { n: 2 }]) gs.push(() => o.n);
console.log(gs.map((g) => g()));
/// a closure changes its loop's variable
const hs = [];
for (let i = 0; i < 4; i++) { hs.push(() => i); if (i === 1) i++; }
console.log(hs.map((h) => h()));
/// closures over objects
function outer() { const big = { size: 7 }; let other = { size: 8 }; return { read: () => big.size + other.size, drop() { other = { size: 0 }; } }; }
const both = outer();
console.log(both.read()); both.drop(); console.log(both.read());
/// a closure in a closure
const deep = (a) => (b) => (c) => [a.v, b.v, c.v];
console.log(deep({ v: 1 })({ v: 2 })({ v: 3 }));
/// call, apply, bind
function say(...words) { return [this.name, ...words].join(" "); }
console.log(say.call({ name: "a" }, 1), say.apply({ name: "b" }, [1, 2]), say.bind({ name: "c" }, 0)(9));
/// this of a method and of an arrow
const thing = { v: 5, plain() { return this?.v; }, arrow: () => typeof this, nested() { return [1].map(() => this.v)[0]; } };
const { plain } = thing;
console.log(thing.plain(), plain(), thing.arrow(), thing.nested());
/// immediately called
console.log((() => 1)(), (function () { return 2; })(), (function* () {})().next().done);
/// object literals
const key = "dyn";
const short = 1;
const made = { short, [key]: 2, ["a" + "b"]: 3, "quoted key": 4, 5: 6, method() { return this[5]; } };
console.log(Object.keys(made), made["quoted key"], made.method());
/// getters and setters
const temp = { c: 20, get f() { return this.c * 9 / 5 + 32; }, set f(v) { this.c = (v - 32) * 5 / 9; } };
console.log(temp.f); temp.f = 212; console.log(temp.c, Object.keys(temp));
/// spread of objects
const one = { a: 1, b: { deep: true } }, two = { ...one, a: 2, ...{ c: 3 }, ...null };
console.log(two.a, two.b === one.b, two.c, Object.keys(two));
/// delete and in
const d = { a: 1, b: 2 };
console.log("a" in d, delete d.a, "a" in d, d.a, delete d.none);
/// chains
const maybe = { a: { b: () => "found" } };
console.log(maybe?.a?.b?.(), maybe.x?.y.z, maybe.x?.(), maybe?.["a"].b(), undefined?.x);
/// a missing property of undefined
try { undefined.x; } catch (e) { console.log(e.name, e.message); }
try { null.x = 1; } catch (e) { console.log(e.name, e.message); }
/// a call of what is no function
const o = { n: 1 };
try { o.n(); } catch (e) { console.log(e.name, e.message); }
try { o.missing(); } catch (e) { console.log(e.name, e.message); }
try { new o.n(); } catch (e) { console.log(e.name, e.message); }
/// Object functions
const ob = { b: 1, a: 2 };
console.log(Object.keys(ob), Object.values(ob), Object.entries(ob).map(([k, v]) => k + v), Object.assign({}, ob, { c: 3 }).c, Object.fromEntries([["x", 1]]).x);
/// Object.is
const same = {};
console.log(Object.is(same, same), Object.is(same, {}), Object.is(NaN, NaN), Object.is(0, -0));
/// freeze
const frozen = Object.freeze({ a: 1 });
try { frozen.a = 2; } catch (e) { console.log(e.name); }
try { frozen.b = 2; } catch (e) { console.log(e.name); }
console.log(frozen.a, Object.isFrozen(frozen));
/// defineProperty
const dp = {};
Object.defineProperty(dp, "hidden", { value: 1 });
Object.defineProperty(dp, "computed", { get() { return 2; }, enumerable: true });
console.log(dp.hidden, dp.computed, Object.keys(dp));
/// prototypes by hand
function Point(x) { this.x = x; }
Point.prototype.double = function () { return this.x * 2; };
const p = new Point(4);
console.log(p.double(), p instanceof Point, p.constructor === Point, Object.getPrototypeOf(p) === Point.prototype);
/// Object.create
const proto = { hi() { return "hi " + this.n; } };
const child = Object.create(proto); child.n = 1;
console.log(child.hi(), proto.isPrototypeOf(child), child.hasOwnProperty("hi"), Object.getPrototypeOf(Object.create(null)));
/// classes
class A { constructor(v) { this.v = v; } get double() { return this.v * 2; } set double(x) { this.v = x / 2; } static of(v) { return new this(v); } toString() { return `A(${this.v})`; } }
const a1 = A.of(3); a1.double = 10;
console.log(a1.v, a1.double, `${a1}`, a1 + "", typeof A, A.name);
/// fields
class F { a = 1; b = this.a + 1; ["c" + 1] = 3; static s = 10; static t = F.s + 1; arrow = () => this.a; }
const fi = new F();
console.log(fi.a, fi.b, fi.c1, F.s, F.t, fi.arrow.call(null), Object.keys(fi));
/// private members
class P { #x = 1; static #count = 0; #inc() { return ++this.#x; } get x() { return this.#inc(); } static made() { return ++P.#count; } has(o) { return #x in o; } }
const pp = new P();
console.log(pp.x, pp.x, P.made(), P.made(), pp.has(pp), pp.has({}));
/// a private member of another object
class Q { #x = 1; static read(o) { return o.#x; } }
try { Q.read({}); } catch (e) { console.log(e.name, e.message); }
/// inheritance
class Base { constructor(n) { this.n = n; } hi() { return "base " + this.n; } static make() { return new this(1); } }
class Derived extends Base { constructor(n) { super(n * 2); this.own = true; } hi() { return "derived " + super.hi(); } }
const dd = new Derived(2);
console.log(dd.hi(), dd instanceof Base, Derived.make().hi(), Object.getPrototypeOf(Derived) === Base);
/// a default constructor
class B0 { constructor(...all) { this.all = all; } }
class B1 extends B0 { extra = this.all.length; }
console.log(new B1(1, 2, 3).extra);
/// this before super
class S0 {}
class S1 extends S0 { constructor() { try { this.x = 1; } catch (e) { console.log(e.name); } super(); this.x = 2; } }
console.log(new S1().x);
/// super in an object
const parent = { hi() { return "parent"; } };
const kid = { hi() { return super.hi() + " kid"; } };
Object.setPrototypeOf(kid, parent);
console.log(kid.hi());
/// a class without new
class W {}
try { W(); } catch (e) { console.log(e.name, e.message); }
/// new.target
function T() { return new.target === T; }
class N { constructor() { this.t = new.target.name; } }
class M extends N {}
console.log(T(), new M().t, new N().t);
/// a constructor that returns an object
class R { constructor() { return { other: 1 }; } }
console.log(new R().other, new R() instanceof R);
/// static blocks
class SB { static a = 1; static { this.b = this.a + 1; } static c = this.b + 1; }
console.log(SB.a, SB.b, SB.c);
/// class expressions
const Ex = class Named { who() { return Named.name; } };
console.log(new Ex().who(), Ex.name, (class {}).name, (() => { const X = class {}; return X.name; })());
/// instanceof with Symbol.hasInstance
class Even { static [Symbol.hasInstance](n) { return n % 2 === 0; } }
console.log(2 instanceof Even, 3 instanceof Even);
/// a Map that is extended
class Counter extends Map { up(k) { this.set(k, (this.get(k) ?? 0) + 1); return this; } }
const counts = new Counter().up("a").up("a").up("b");
console.log(counts.get("a"), counts.size, counts instanceof Map, counts instanceof Counter);
/// errors that are extended
class MyError extends Error { constructor(m, code) { super(m); this.name = "MyError"; this.code = code; } }
try { throw new MyError("bad", 7); } catch (e) { console.log(e.name, e.message, e.code, e instanceof Error, `${e}`); }
/// toString and valueOf
const money = { valueOf() { return 42; }, toString() { return "money"; } };
console.log(money + 1, `${money}`, money > 41, String(money), money * 2);
/// Symbol.toPrimitive
const prim = { [Symbol.toPrimitive](hint) { return hint === "number" ? 1 : hint; } };
console.log(+prim, `${prim}`, prim + "");
/// arrays
const arr = [3, 1, 2];
console.log(arr.length, arr[0], arr.at(-1), arr.indexOf(1), arr.includes(5), arr.join("-"), [...arr].reverse(), Array.isArray(arr));
/// arrays change
const ch = [1, 2, 3];
console.log(ch.push(4, 5), ch.pop(), ch.shift(), ch.unshift(0), ch, ch.splice(1, 2, "a", "b", "c"), ch, ch.reverse());
/// arrays of objects change
const obs = [{ n: 1 }, { n: 2 }, { n: 3 }, { n: 4 }];
obs.shift(); obs.unshift({ n: 0 }); obs.splice(1, 1, { n: 9 }, { n: 8 }); obs.reverse();
console.log(obs.map((o) => o.n), obs.pop().n, obs.length);
/// array functions
const nums = [1, 2, 3, 4];
console.log(nums.map((x) => x * 2), nums.filter((x) => x % 2), nums.reduce((a, b) => a + b), nums.some((x) => x > 3), nums.every((x) => x > 3), nums.find((x) => x > 2), nums.findIndex((x) => x > 2), nums.findLast((x) => x < 3));
/// array functions on objects
const ppl = [{ n: "a", v: 2 }, { n: "b", v: 1 }];
console.log(ppl.map(({ n }) => n), ppl.filter((p) => p.v > 1).length, ppl.find((p) => p.v === 1).n, ppl.sort((x, y) => x.v - y.v)[0].n, ppl.reduce((m, p) => (p.v > m.v ? p : m)).n);
/// slices and concat
console.log([1, 2, 3, 4].slice(1, -1), [1].concat([2, 3], 4, [[5]]).length, [1, [2, [3, [4]]]].flat(), [[1, 2], [3]].flatMap((x) => x), [5, 1, 10].sort(), [5, 1, 10].sort((a, b) => a - b));
/// array length
const len = [1, 2, 3]; len.length = 1; len[3] = 4;
console.log(len.length, len, 2 in len);
/// forEach and entries
["a", "b"].forEach((v, i, all) => console.log(v, i, all.length));
for (const [i, v] of ["x", "y"].entries()) console.log(i, v);
/// Array.from and of
console.log(Array.from("abc"), Array.from({ length: 3 }, (_, i) => i * i), Array.of(1, 2), Array.from(new Set([1, 1, 2])), new Array(3).fill(0), Array.from([{ v: 1 }], (o) => o.v));
/// destructuring of arrays
const [h, , t = 5, ...r] = [1, 2, undefined, 4, 5];
let [m1, m2] = [1, 2]; [m1, m2] = [m2, m1];
console.log(h, t, r, m1, m2);
/// destructuring of objects
const { a: renamed, b: { c: inner = 3 } = {}, ...others } = { a: 1, x: 2, y: 3 };
console.log(renamed, inner, others.x, Object.keys(others));
/// destructuring parameters
const area = ({ w = 1, h: height = 2 } = {}, [first] = []) => [w * height, first];
console.log(area(), area({ w: 3 }, [9]), area({ w: 2, h: 5 }));
/// destructuring what is not there
try { const { a } = null; } catch (e) { console.log(e.name); }
try { const [a] = undefined; } catch (e) { console.log(e.name); }
/// destructuring assignment to members
const goal = {};
({ a: goal.x, b: goal.y = 2 } = { a: 1 });
[goal.z, goal["w"]] = [3, 4];
console.log(goal.x, goal.y, goal.z, goal.w);
/// computed keys in patterns
const kk = "a"; const { [kk]: va, ...rr } = { a: 1, b: 2 };
console.log(va, Object.keys(rr));
/// spread in calls and arrays
console.log(Math.max(...[1, 5], 3), [...[1, 2], ...new Set([3]), ..."ab"], [..."ab"].length);
/// Map
const map = new Map([["a", 1], [NaN, 2]]);
const ok = {};
map.set(ok, "object").set(0, "zero");
console.log(map.get(ok), map.get({}), map.get(NaN), map.get(-0), map.has("a"), map.size, map.delete("a"), map.delete("a"), [...map.values()]);
/// Map keeps its order
const om = new Map(); om.set("b", 1); om.set("a", 2); om.delete("b"); om.set("b", 3);
console.log([...om.keys()], [...om], om);
/// Map with object values
const mv = new Map(); mv.set("x", { n: 1 }); mv.set("y", { n: 2 });
for (const [k, { n }] of mv) console.log(k, n);
mv.forEach((v, k) => console.log(k, v.n));
console.log([...mv.values()].map((v) => v.n), mv.get("x").n);
/// Set
const set = new Set([1, 2, 2, "2"]);
console.log(set.size, set.has(2), set.add(3) === set, set.delete(1), [...set], set);
/// Set of objects
const so = { n: 1 }, ss = new Set([so, { n: 2 }, so]);
console.log(ss.size, ss.has(so), [...ss].map((o) => o.n)); ss.clear(); console.log(ss.size);
/// changing while iterating
const grow = new Set([1]);
for (const v of grow) { console.log(v); if (v < 4) grow.add(v + 1); }
/// iterators by hand
const it = ["a", "b"][Symbol.iterator]();
console.log(it.next().value, it.next().value, it.next().done);
const mi = new Map([[1, { v: 2 }]]).entries(); console.log(mi.next().value[1].v);
/// an iterable of one's own
const range = { from: 1, to: 3, [Symbol.iterator]() { let n = this.from; const { to } = this; return { next: () => (n <= to ? { value: n++, done: false } : { value: undefined, done: true }), return() { console.log("closed"); return {}; } }; } };
console.log([...range]); for (const v of range) { if (v === 2) break; console.log(v); }
const [firstOfRange] = range; console.log(firstOfRange);
/// generators
function* count(n) { try { for (let i = 0; i < n; i++) { const got = yield i; if (got) console.log("got", got); } return "end"; } finally { console.log("cleanup"); } }
const g = count(3); console.log(g.next("ignored").value, g.next("x").value, g.return("r").value, g.next().done);
console.log([...count(2)]);
/// generators of objects
function* objects() { for (let i = 0; i < 3; i++) yield { i }; }
const all = [...objects()]; console.log(all.map((o) => o.i)); for (const { i } of objects()) console.log(i);
/// yield star
function* inner1() { yield 1; return "result"; }
function* outer1() { const r = yield* inner1(); yield r; yield* [2, 3]; }
console.log([...outer1()]);
/// a generator that is thrown into
function* brave() { for (;;) { try { yield "ok"; } catch (e) { console.log("caught", e.message); } } }
const br = brave(); br.next(); console.log(br.throw(new Error("x")).value);
/// generator methods
class Tree { constructor(v, l, r) { Object.assign(this, { v, l, r }); } *[Symbol.iterator]() { if (this.l) yield* this.l; yield this.v; if (this.r) yield* this.r; } }
console.log([...new Tree(2, new Tree(1), new Tree(3))]);
/// try, catch, finally
function tried(v) { try { if (v) throw new Error("e" + v); return "ok"; } catch (e) { return e.message; } finally { console.log("finally", v); } }
console.log(tried(0), tried(1));
/// finally overrides
function over() { try { return 1; } finally { return 2; } }
function loop() { for (const x of [1, 2]) { try { continue; } finally { console.log("f", x); } } return "end"; }
console.log(over(), loop());
/// nested tries
try { try { throw new RangeError("inner"); } catch (e) { throw new TypeError("outer", { cause: e }); } finally { console.log("f1"); } } catch (e) { console.log(e.name, e.cause.message); }
/// throwing what is no error
try { throw { code: 5 }; } catch ({ code }) { console.log(code); }
try { throw 5; } catch { console.log("no binding"); }
/// errors and their names
for (const E of [Error, TypeError, RangeError, SyntaxError, ReferenceError]) { const e = new E("m"); console.log(e.name, String(e), e instanceof Error, e instanceof E); }
/// an error of the language is caught
try { [].reduce((a, b) => a); } catch (e) { console.log(e.name); }
try { "x".repeat(-1); } catch (e) { console.log(e.name); }
try { for (const x of 5) {} } catch (e) { console.log(e.name); }
/// symbols
const s1 = Symbol("d"), s2 = Symbol("d");
const withSym = { [s1]: 1, plain: 2 };
console.log(s1 === s2, withSym[s1], Object.keys(withSym), s1.toString(), s1.description, Symbol.for("a") === Symbol.for("a"), Symbol.keyFor(Symbol.for("a")));
/// a symbol is no text
try { `${Symbol("x")}`; } catch (e) { console.log(e.name); }
/// JSON
console.log(JSON.stringify({ a: [1, "x", null, undefined], b: undefined, c: { d: true } }), JSON.stringify([NaN, Infinity]), JSON.parse('{"a":{"b":[1,2]}}').a.b[1]);
/// JSON with spaces and toJSON
console.log(JSON.stringify({ a: { toJSON() { return "J"; } } }, null, 2));
/// promises in order
Promise.resolve().then(() => console.log("1")); queueMicrotask(() => console.log("2")); console.log("0");
Promise.resolve().then(() => console.log("3")).then(() => console.log("4"));
/// promise chains
Promise.resolve(1).then((v) => v + 1).then((v) => { throw new Error("at " + v); }).catch((e) => e.message).then((v) => console.log(v)).finally(() => console.log("end"));
/// a promise by hand
const ph = new Promise((resolve, reject) => { resolve("first"); reject(new Error("late")); resolve("again"); });
ph.then((v) => console.log(v));
new Promise(() => { throw new Error("thrown"); }).catch((e) => console.log(e.message));
/// async functions
async function af(v) { console.log("start", v); await null; console.log("after", v); return v * 2; }
af(1).then((v) => console.log("done", v)); af(2); console.log("sync");
/// await gives values
const v1 = await Promise.resolve({ n: 5 }); const v2 = await 7; console.log(v1.n, v2);
/// async errors
async function bad() { await null; throw new TypeError("async"); }
try { await bad(); } catch (e) { console.log(e.name, e.message); }
await bad().catch((e) => console.log("caught", e.message));
/// Promise.all and others
console.log(await Promise.all([1, Promise.resolve(2), (async () => 3)()]), (await Promise.allSettled([Promise.reject(1), 2])).map((r) => r.status), await Promise.race([new Promise(() => {}), 5]), await Promise.any([Promise.reject(1), 6]));
/// a thenable
console.log(await { then(go) { go("thenable"); } });
/// async order
(async () => { console.log("a1"); await null; console.log("a2"); await null; console.log("a3"); })();
(async () => { console.log("b1"); await null; console.log("b2"); await null; console.log("b3"); })();
/// async arrows in loops
for (const n of [1, 2]) { await null; console.log(n); }
const results = []; for await (const v of [Promise.resolve(1), 2]) results.push(v); console.log(results);
/// async generators
async function* ag() { for (let i = 0; i < 3; i++) { await null; yield { i }; } }
for await (const { i } of ag()) { if (i === 2) break; console.log(i); }
/// async methods and this
class Svc { v = 3; async get() { await null; return this.v; } }
console.log(await new Svc().get());
/// promises resolve promises
const pp1 = Promise.resolve(Promise.resolve("flat")); console.log(await pp1, await (async () => Promise.resolve("async flat"))());
/// timers in order
setTimeout(() => console.log("t3"), 200); setTimeout(() => console.log("t1"), 1); setTimeout((a, b) => console.log("t2", a, b), 100, "x", 2);
const id = setTimeout(() => console.log("never"), 5); clearTimeout(id); console.log("now");
/// intervals
let ticks = 0; const iv = setInterval(() => { console.log("tick", ++ticks); if (ticks === 3) clearInterval(iv); }, 3);
/// timers and microtasks
setTimeout(() => { console.log("timer"); Promise.resolve().then(() => console.log("micro in timer")); }, 1); setTimeout(() => console.log("second"), 3);
/// turns
console.log("job 1"); await turn(); console.log("job 2"); await null; console.log("still 2"); await turn(); console.log("job 3");
/// weak things answer while they are held
const wk = {}; const wr = new WeakRef(wk), wm = new WeakMap([[wk, { v: 1 }]]), ws = new WeakSet([wk]);
console.log(wr.deref() === wk, wm.get(wk).v, wm.has(wk), ws.has(wk), wm.delete(wk), wm.has(wk), ws.delete(wk), ws.has(wk), wm.get(wk));
/// what can't be held weakly
for (const f of [() => new WeakRef(1), () => new WeakMap().set("k", 1), () => new WeakSet().add(Symbol.for("x")), () => new FinalizationRegistry(() => {}).register({}, 1, 5)]) { try { f(); console.log("no error"); } catch (e) { console.log(e.name); } }
console.log(new WeakMap().get(1), new WeakSet().has("x"), new WeakMap().delete(null));
/// unregister
const fr = new FinalizationRegistry(() => {}), token = {}, target = {};
fr.register(target, "held", token); console.log(fr.unregister(token), fr.unregister(token));
try { fr.register(target, target); } catch (e) { console.log(e.name); }
/// a wrong receiver
try { WeakRef.prototype.deref.call({}); } catch (e) { console.log(e.name); }
try { new Map().get.call(new Set(), 1); } catch (e) { console.log(e.name); }
/// weak things without new
for (const F of [WeakMap, WeakSet, WeakRef, FinalizationRegistry, Map, Set, Promise]) { try { F(); } catch (e) { console.log(e.name); } }
/// a WeakMap for private data
const data = new WeakMap();
class Person { constructor(n) { data.set(this, { n }); } get n() { return data.get(this).n; } }
console.log(new Person("ada").n, data.has(new Person("x")));
/// shared memory
const sab = new SharedArrayBuffer(16), ta = new Uint32Array(sab), ti = new Int32Array(sab);
ta[0] = 5; Atomics.store(ta, 1, 7); console.log(Atomics.add(ta, 0, 3), ta[0], ta[1], ta.length, sab.byteLength, Atomics.sub(ti, 1, 9), ti[1], ta[1], ta[99], Atomics.load(ta, 2));
try { Atomics.load(ta, 9); } catch (e) { console.log(e.name); }
/// a word is taken modulo
const w32 = new Uint32Array(new SharedArrayBuffer(4)); w32[0] = -1; console.log(w32[0]); w32[0] = 2 ** 32 + 5; console.log(w32[0], Atomics.add(w32, 0, 2 ** 32 - 1), w32[0]); w32[0]++; w32[0] += 10; console.log(w32[0]);
/// words that are changed, as signed and as unsigned numbers
const block = new SharedArrayBuffer(8), views = [new Uint32Array(block), new Int32Array(block)], numbers = [0, 1, -1, 5, 2 ** 31, 2 ** 32 + 9, -(2 ** 53) + 1, 2 ** 60, Infinity, NaN, -0.9, "0x10", " 12 ", "1e3", null, undefined, true];
for (const v of views) for (const name of ["and", "or", "xor", "exchange"]) for (const n of numbers) { v[1] = -6; console.log(name, n, Atomics[name](v, 1, n), v[1], views[0][1], views[1][1], v[0]); }
for (const v of views) for (const n of numbers) { v[1] = n; console.log(n, Atomics.compareExchange(v, 1, n, -7), v[1], Atomics.compareExchange(v, 1, n, 8), v[1], Atomics.compareExchange(v, 1, 2 ** 32 - 7, n), v[1], Atomics.compareExchange(v, 1), v[1]); }
/// what a call of Atomics asks for, in order
const told = [], give = (name, value) => ({ valueOf() { told.push(name); return value; }, toString() { told.push("never"); return "9"; } }), v = new Int32Array(new SharedArrayBuffer(12), 4, 1);
const calls = { and: 1, or: 1, xor: 1, exchange: 1, add: 1, sub: 1, store: 1, compareExchange: 2, load: 0 };
const tried = (name, view, index, ...all) => { try { console.log(name, Atomics[name](view, index, ...all)); } catch (e) { console.log(name, e.name); } console.log(told.splice(0), v[0]); };
for (const [name, count] of Object.entries(calls)) {
  const all = [give("first", 3), give("second", "4")].slice(0, count);
  for (const none of [{}, [1], v.buffer, 5, null, undefined]) tried(name, none, give("index", 0), ...all);
  for (const index of [-1, 1, Infinity, 2 ** 53, Symbol("s"), { [Symbol.toPrimitive]: () => 1 }, { valueOf() { throw new EvalError("own"); } }]) tried(name, v, index, ...all);
  for (const index of [give("index", "0"), undefined, -0.5, "", [], [0]]) tried(name, v, index, ...all);
  for (let at = 0; at < count; at += 1) tried(name, v, 0, ...all.map((one, place) => (place === at ? Symbol("s") : one)));
}
let gone = new Int32Array(new SharedArrayBuffer(4)); const ref = new WeakRef(gone.buffer); await turn();
console.log(Atomics.exchange(gone, { valueOf() { gone = null; gc(); return 0; } }, { valueOf() { gc(); return 7; } })); await turn(); gc(); console.log(ref.deref(), typeof gone);
/// what Atomics.wait and notify ask for, in order, and what they give an agent alone
const told = [], give = (name, value) => ({ valueOf() { told.push(name); return value; } }), s = new Int32Array(new SharedArrayBuffer(12), 4, 2);
const tried = (act) => { try { console.log(act()); } catch (e) { console.log(String(e)); } console.log(told.splice(0)); };
for (const none of [new Uint32Array(s.buffer), {}, [1], 5, "a", null, undefined]) { tried(() => Atomics.wait(none, give("index", 0), 0, 1)); tried(() => Atomics.notify(none, give("index", 0))); }
for (const index of [-1, 2, Infinity, Symbol("s"), give("index", 9)]) { tried(() => Atomics.wait(s, index, give("value", 0), 1)); tried(() => Atomics.notify(s, index, give("count", 0))); }
s[0] = -1;
for (const [value, time] of [[give("value", -1), give("time", 1)], [2 ** 32 - 1, "1"], [0, -1], [Symbol("s"), 1], [-1, Symbol("s")], ["-1", 0.5], [-1.5, 1], [undefined, 0]]) tried(() => Atomics.wait(s, give("index", 0), value, time));
for (const count of [give("count", 1), -5, Infinity, -Infinity, undefined, "2", NaN, Symbol("s")]) tried(() => Atomics.notify(s, 0, count));
let gone = new Int32Array(new SharedArrayBuffer(4)); const ref = new WeakRef(gone.buffer); await turn();
console.log(Atomics.wait(gone, 0, 0, { valueOf() { gone = null; gc(); return 1; } })); await turn(); gc(); console.log(ref.deref(), typeof gone);
/// a lock of two agents, and a place that one of them takes from
const LOCK = 0, PLACE = 1; const go = async (me, v) => { for (let i = 0; i < 3; i++) { const had = Atomics.compareExchange(v, LOCK, 0, me); if (had === 0) { console.log(me, "has it, and takes", Atomics.exchange(v, PLACE, me * 10 + i)); if (i > 0) Atomics.store(v, LOCK, 0); } else console.log(me, "waits for", had); await null; } };
agent("a", async () => { const b = new SharedArrayBuffer(8), v = new Int32Array(b); postMessage(b, "b"); Atomics.compareExchange(v, LOCK, 0, 9); await message("b"); console.log("a lets go", Atomics.xor(v, LOCK, 9)); postMessage(1, "b"); await message("b"); await go(1, v); console.log("bits", Atomics.or(v, PLACE, 128), Atomics.and(v, PLACE, ~3), v[PLACE]); });
agent("b", async () => { const v = new Uint32Array(await message("a")); await go(2, v); postMessage(1, "a"); await message("a"); await go(3, v); postMessage(2, "a"); });
/// console.log of several kinds
console.log(); console.log(""); console.log("a", 1, true, null, undefined, -0, 1.5); console.log([1, "a", null, [2]], [], [[]]); console.log("%", "\"quoted\"", "back\\slash", "é");
console.log(function named() {}, () => {}, class K {}, new Error("boom"), Symbol("s"), Symbol.for("t"));
/// console.log as a value
["a", "b"].forEach((x) => console.log(x)); const { log } = console; log("detached", 1);
/// long texts and odd keys
const odd = { "data-id": { v: 1 }, "": { v: 2 }, "i0": { v: 3 }, 0: { v: 4 }, "a.b": { v: 5 }, ["x".repeat(50)]: { v: 6 }, ["x".repeat(51)]: { v: 7 }, "é": { v: 8 }, "è": { v: 9 } };
console.log(Object.values(odd).map((o) => o.v), odd["data-id"].v, odd.i0.v, odd[0].v, odd["é"].v, odd["è"].v);
console.log("y".repeat(300).length);
/// getters on the way
const lazy = { get v() { Object.defineProperty(this, "v", { value: { n: 1 } }); return this.v; } };
console.log(lazy.v.n, lazy.v === lazy.v);
/// arguments are evaluated once, in order
const log2 = []; const note = (x) => (log2.push(x), x);
note("a") + note("b"); [note("c")][note(0)]; ({ [note("k")]: note("v") }); ((...x) => x)(note(1), note(2));
console.log(log2);
/// assignment in expressions
let e1, e2; e1 = e2 = { n: 1 }; console.log(e1 === e2, (e1 = null) ?? "was null", e2.n);
const chain2 = { a: {} }; (chain2.a.b = { c: 1 }).d = 2; console.log(chain2.a.b.c, chain2.a.b.d);
/// linked lists
let list = null; for (let i = 0; i < 5; i++) list = { i, next: list };
let sum = 0; for (let at = list; at; at = at.next) sum += at.i; console.log(sum);
/// a tree by recursion
const build = (d) => (d === 0 ? null : { l: build(d - 1), r: build(d - 1) }); const depth = (t) => (t ? 1 + Math.max(depth(t.l), depth(t.r)) : 0); console.log(depth(build(4)));
/// currying with objects
const pipe = (...fs) => (x) => fs.reduce((v, f) => f(v), x); console.log(pipe((o) => ({ n: o.n + 1 }), (o) => ({ n: o.n * 2 }))({ n: 1 }).n);
/// an event emitter
class Emitter { #on = new Map(); on(n, f) { (this.#on.get(n) ?? this.#on.set(n, []).get(n)).push(f); return () => { const l = this.#on.get(n); l.splice(l.indexOf(f), 1); }; } emit(n, ...a) { for (const f of [...(this.#on.get(n) ?? [])]) f(...a); } }
const em = new Emitter(); const off = em.on("x", (v) => console.log("1st", v)); em.on("x", (v) => console.log("2nd", v)); em.emit("x", 1); off(); em.emit("x", 2); em.emit("none");
/// memoize
const memo = (f) => { const seen = new Map(); return (k) => { if (!seen.has(k)) seen.set(k, f(k)); return seen.get(k); }; };
let calls = 0; const mf = memo((k) => { calls++; return { k }; }); console.log(mf("a") === mf("a"), mf("b").k, calls);
/// a stack and a queue
const st = []; st.push({ n: 1 }); st.push({ n: 2 }); console.log(st.pop().n, st.pop().n, st.pop()); const qu = [{ n: 1 }, { n: 2 }]; console.log(qu.shift().n, qu.length, qu[0].n);
/// sorting objects is stable
console.log([{ k: 1, n: "a" }, { k: 0, n: "b" }, { k: 1, n: "c" }, { k: 0, n: "d" }].sort((x, y) => x.k - y.k).map((o) => o.n).join(""));
/// an accessor that is inherited
class Acc { #v = 1; get v() { return this.#v; } set v(x) { this.#v = x; } } class Sub extends Acc { get v() { return super.v + 10; } set v(x) { super.v = x * 2; } } const sub = new Sub(); sub.v = 5; console.log(sub.v);
/// a collection in the midst of an expression
const o = { a: { n: 1 }, get b() { return this.a; } };
function swap(x) { o.a = null; return x; }
console.log(swap(o.a).n);
let v = { n: 2 };
function drop(x) { v = null; gc(); return x.n; }
console.log(drop(v));
let u = { n: 3 };
console.log([u, (u = null), gc()][0].n);
const f = (() => { const k = { n: 4 }; return { m() { return k.n; } }; })();
console.log(f.m());
let g = { run() { g = null; gc(); return this.n; }, n: 5 };
console.log(g.run());
class C { constructor() { this.x = { n: 6 }; } use() { h = null; gc(); return this.x.n; } }
let h = new C();
console.log(h.use());
const arr = [{ n: 7 }, { n: 8 }];
console.log(arr.map((e) => { arr.length = 0; gc(); return e.n; }));
const w = new WeakRef((() => ({ n: 9 }))()); console.log(w.deref().n);
function* gen() { const a = { n: 10 }; yield a; gc(); yield a.n; }
const it = gen(); const first = it.next().value; console.log(first.n, it.next().value);
try { throw { n: 11 }; } catch (e) { gc(); console.log(e.n); }
const p = new Promise((r) => setTimeout(() => r({ n: 12 }), 1)); gc(); await turn(); gc(); console.log((await p).n);
const big = [1, 2, 3].map((n) => ({ n })); for (const { n } of big) { gc(); console.log(n); }
const m = new Map([[{ k: 1 }, { v: 1 }]]); for (const [k, vv] of m) { m.clear(); gc(); console.log(k.k, vv.v); }
label: for (const q of [{ n: 13 }]) { gc(); console.log(q.n); break label; }
const spread = [...[{ n: 14 }].values(), gc()]; console.log(spread[0].n);
console.log(((a, b) => a.n + b.n)({ n: 1 }, (gc(), { n: 2 })));
console.log({ a: { n: 15 }, b: gc() }.a.n, `${(gc(), "t")}`);
const { deep: { er } } = { deep: { er: { n: 16 } } }; gc(); console.log(er.n);
async function as(x) { gc(); await null; gc(); return x; } console.log((await as({ n: 17 })).n);
const bound = function () { gc(); return this.n; }.bind({ n: 18 }); gc(); console.log(bound());
const getter = { get x() { gc(); return { n: 19 }; } }; console.log(getter.x.n);
const lst = [{ n: 3 }, { n: 1 }]; lst.sort((x, y) => (gc(), x.n - y.n)); console.log(lst.map((x) => x.n));
console.log([{ n: 1 }, { n: 2 }].reduce((acc, x) => (gc(), { n: acc.n + x.n })).n);
new Promise((res, rej) => rej({ n: 20 })).catch((e) => { gc(); console.log(e.n); });
/// what is on its way stays held
const X = class { static a = { n: 1 }; static b = { n: 2 }; }; gc(); console.log(X.a.n, X.b.n);
console.log((class { static q = { n: 3 }; static { gc(); } }).q.n);
const make = () => class { static z = { n: 4 }; read() { return this.constructor.z.n; } }; gc(); const Y = make(); gc(); console.log(new Y().read());
function scoped() { const secret = { n: 5 }; class Inner { get() { return secret.n; } static s = secret; } return new Inner(); }
const inn = scoped(); gc(); console.log(inn.get(), inn.constructor.s.n);
await turn(); gc(); console.log(inn.get());
function fact() { const cfg = { n: 6 }; return class extends Array { m() { return cfg.n; } }; }
const Z = fact(); gc(); console.log(new Z().m());
const ps = [new Promise((r) => r({ n: 7 })), Promise.resolve({ n: 8 })]; gc(); await turn(); gc(); console.log((await ps[0]).n, (await ps[1]).n);
const { promise, resolve } = Promise.withResolvers?.() ?? (() => { let resolve; const promise = new Promise((r) => (resolve = r)); return { promise, resolve }; })();
setTimeout(resolve, 1, { n: 9 }); await turn(); gc(); console.log((await promise).n);
const t = setTimeout((o) => console.log(o.n), 10, { n: 10 }); await turn(); gc(); await turn(); await turn();
const wr = []; function listen(em) { const st = { n: 11 }; wr.push(new WeakRef(st)); em.h = () => st.n; } const em = {}; listen(em); await turn(); gc(); console.log(em.h(), wr[0].deref()?.n); em.h = null; await turn(); gc(); console.log(wr[0].deref()?.n);
let chain = Promise.resolve({ n: 12 }); for (let i = 0; i < 3; i++) chain = chain.then((o) => ({ n: o.n + 1 })); gc(); console.log((await chain).n);
const allp = Promise.all([new Promise((r) => setTimeout(() => r({ n: 1 }), 1)), { n: 2 }]); await turn(); gc(); await turn(); console.log((await allp).map((o) => o.n));
class Q { static #inst = null; static get() { return (Q.#inst ??= new Q()); } v = { n: 13 }; } Q.get(); gc(); await turn(); gc(); console.log(Q.get().v.n, Q.get() === Q.get());
/// debounce
const debounce = (f, ms) => { let t; return (...a) => { clearTimeout(t); t = setTimeout(() => f(...a), ms); }; };
const d = debounce((x) => console.log("debounced", x.v), 10); d({ v: 1 }); d({ v: 2 }); await new Promise((r) => setTimeout(r, 60));
/// once
const once = (f) => { let done = false, r; return (...a) => (done ? r : ((done = true), (r = f(...a)))); }; const mk = once(() => ({ id: 1 })); console.log(mk() === mk());
/// a tree with a generator
const tree = { v: 1, kids: [{ v: 2, kids: [] }, { v: 3, kids: [{ v: 4, kids: [] }] }] }; const walk = function* (t) { yield t.v; for (const k of t.kids) yield* walk(k); }; console.log([...walk(tree)]);
/// parents in a WeakMap
const tree = { v: 1, kids: [{ v: 2, kids: [] }, { v: 3, kids: [{ v: 4, kids: [] }] }] };
const parents = new WeakMap(); (function link(t) { for (const k of t.kids) { parents.set(k, t); link(k); } })(tree); console.log(parents.get(tree.kids[1].kids[0]).v);
/// a deep copy with a WeakMap
const clone = (o, seen = new WeakMap()) => { if (typeof o !== "object" || o === null) return o; if (seen.has(o)) return seen.get(o); const c = Array.isArray(o) ? [] : {}; seen.set(o, c); for (const k of Object.keys(o)) c[k] = clone(o[k], seen); return c; };
const cyc = { n: 1, list: [{ n: 2 }] }; cyc.self = cyc; const cc = clone(cyc); console.log(cc !== cyc, cc.self === cc, cc.list[0].n, cc.list[0] !== cyc.list[0]);
/// a cache of the last ones
const lru = new (class LRU { #m = new Map(); constructor(n) { this.max = n; } get(k) { const v = this.#m.get(k); if (v !== undefined) { this.#m.delete(k); this.#m.set(k, v); } return v; } set(k, v) { this.#m.delete(k); this.#m.set(k, v); if (this.#m.size > this.max) this.#m.delete(this.#m.keys().next().value); } keys() { return [...this.#m.keys()]; } })(2);
lru.set("a", { n: 1 }); lru.set("b", { n: 2 }); lru.get("a"); lru.set("c", { n: 3 }); console.log(lru.keys(), lru.get("b"), lru.get("a").n);
/// a semaphore of promises
const sem = (n) => { const q = []; const next = () => { if (n > 0 && q.length) { n--; q.shift()(); } }; return async (f) => { await new Promise((r) => { q.push(r); next(); }); try { return await f(); } finally { n++; next(); } }; };
const run = sem(1); console.log(await Promise.all([1, 2, 3].map((i) => run(async () => { await null; return { i }; }))).then((l) => l.map((o) => o.i)));
/// collections while promises wait
const later = (o, ms) => new Promise((r) => setTimeout(() => r(o), ms));
const p1 = new Promise((r) => r(later({ n: 1 }, 10))); await turn(); gc(); await turn(); gc(); console.log((await p1).n);
const p2 = (async () => { const o = await later({ n: 2 }, 10); gc(); return later(o, 10); })(); await turn(); gc(); console.log((await p2).n);
const p3 = Promise.resolve(0).then(() => later({ n: 3 }, 20)); await turn(); gc(); await turn(); gc(); console.log((await p3).n);
const then = { keep: { n: 4 }, then(go) { setTimeout(() => go(this.keep), 10); } }; const p4 = (async () => then)(); gc(); await turn(); gc(); console.log((await p4).n);
const p5 = later({ n: 5 }, 10).finally(() => gc()); await turn(); gc(); console.log((await p5).n);
const p6 = Promise.race([later({ n: 6 }, 10), later({ n: 60 }, 100)]); gc(); await turn(); gc(); console.log((await p6).n);
const p7 = Promise.any([Promise.reject({ n: 0 }), later({ n: 7 }, 10)]); gc(); console.log((await p7).n);
const p8 = Promise.allSettled([later({ n: 8 }, 10), Promise.reject({ n: 80 })]); await turn(); gc(); console.log((await p8).map((r) => (r.value ?? r.reason).n));
async function* ag() { let k = { n: 9 }; yield k; await turn(); gc(); yield { n: k.n + 1 }; } const out = []; for await (const o of ag()) { gc(); out.push(o); } await turn(); gc(); console.log(out.map((o) => o.n));
const rej = later(0, 5).then(() => { throw { n: 11 }; }); rej.catch(() => {}); await turn(); gc(); await turn(); gc(); try { await rej; } catch (e) { gc(); console.log(e.n); }
try { await (async () => { try { throw { n: 12 }; } finally { await turn(); gc(); } })(); } catch (e) { console.log(e.n); }
const chain = later({ n: 13 }, 1).then((o) => { gc(); return { o }; }).then(({ o }) => later(o, 5)); o: { await turn(); gc(); } console.log((await chain).n);
let rs; const held = new Promise((r) => (rs = r)); held.extra = { n: 14 }; const w = new WeakRef(held.extra); rs({ n: 15 }); rs = null; await turn(); gc(); console.log((await held).n, w.deref()?.n);
/// collections in the midst of everything
const later = (o, ms) => new Promise((r) => setTimeout(() => r(o), ms)), fail = (o, ms) => new Promise((_, r) => setTimeout(() => r(o), ms));
async function a1() { try { await fail({ n: 1 }, 5); } catch (e) { gc(); await turn(); gc(); return e; } } console.log((await a1()).n);
async function a2() { const own = { n: 2 }; try { return await later(own, 5); } finally { await turn(); gc(); } } console.log((await a2()).n);
const list = await Promise.all([1, 2].map(async (n) => { const o = { n }; await later(0, 5 * n); gc(); return o; })); gc(); console.log(list.map((o) => o.n));
class Pool { #free = []; #wait = []; put(o) { const w = this.#wait.shift(); if (w) w(o); else this.#free.push(o); } get() { return this.#free.length ? Promise.resolve(this.#free.pop()) : new Promise((r) => this.#wait.push(r)); } }
const pool = new Pool(); const got = pool.get(); pool.put({ n: 3 }); gc(); await turn(); gc(); console.log((await got).n); pool.put({ n: 4 }); gc(); console.log((await pool.get()).n);
const tick = (async function* () { let last = { n: 0 }; while (true) { last = { n: last.n + 1 }; yield last; await turn(); gc(); } })(); for await (const t of tick) { gc(); console.log(t.n); if (t.n === 3) break; }
function* pairs() { for (const o of [{ n: 5 }, { n: 6 }]) { const got = yield o; gc(); if (got) console.log("got", got.n); } } const it = pairs(); console.log(it.next().value.n, it.next({ n: 7 }).value.n, it.next({ n: 8 }).done);
const gthrow = (function* () { try { yield 1; } catch (e) { gc(); yield e; } })(); gthrow.next(); console.log(gthrow.throw({ n: 9 }).value.n);
const gret = (function* () { try { yield 1; } finally { gc(); } })(); gret.next(); console.log(gret.return({ n: 10 }).value.n);
const lazy = { get v() { const o = { n: 11 }; Object.defineProperty(this, "v", { value: o, writable: true }); gc(); return o; } }; console.log(lazy.v.n, lazy.v.n);
const m = new Map(); const key = {}; m.set(key, { n: 12 }).set("s", { n: 13 }); gc(); console.log([...m.values()].map((o) => (gc(), o.n)), m.get(key).n); m.forEach((v, k) => { m.delete(k); gc(); console.log(v.n); });
const e1 = new Error("x", { cause: { n: 14 } }); gc(); console.log(e1.cause.n); class E2 extends Error { constructor(o) { super("y"); this.o = o; gc(); } } try { throw new E2({ n: 15 }); } catch ({ o, message }) { gc(); console.log(o.n, message); }
const part = ((a, b) => () => (gc(), a.n + b.n))({ n: 8 }, { n: 8 }); gc(); console.log(part());
let x = { n: 17 }, y = { n: 18 }; [x, y] = [y, x]; gc(); console.log(x.n, y.n); ({ x, y = { n: 0 } } = { x: { n: 19 } }); gc(); console.log(x.n, y.n);
const tag = { a: { b: { c: { n: 20 } } } }; const { a: { b } } = tag; tag.a = null; gc(); console.log(b.c.n, tag?.a?.b);
label: for (const o of [{ n: 21 }, { n: 22 }]) { for (const p of [o]) { gc(); if (p.n === 21) continue label; console.log(p.n); } }
const fnWithProp = () => fnWithProp.data.n; fnWithProp.data = { n: 23 }; gc(); console.log(fnWithProp());
const big = Array.from({ length: 5 }, (_, n) => ({ n })); big.copy = big.slice(2); big.length = 1; gc(); console.log(big[0].n, big.copy.map((o) => o.n));
const ws = new WeakSet(), marks = [{ n: 1 }, { n: 2 }]; marks.forEach((o) => ws.add(o)); gc(); console.log(marks.map((o) => ws.has(o)));
console.log((() => { try { return { n: 24 }; } finally { gc(); } })().n, (() => { for (const o of [{ n: 25 }]) { try { return o; } finally { gc(); } } })().n);
console.log([{ n: 26 }].flatMap((o) => [o, { n: o.n + 1 }]).map((o) => (gc(), o.n)), [[{ n: 28 }]].flat()[0].n, [{ n: 29 }].concat({ n: 30 }).at(-1).n);
/// copies that are sorted and turned round
const unsorted = [{ n: 2 }, { n: 1 }, { n: 3 }]; console.log(unsorted.toSorted((x, y) => x.n - y.n).map((o) => o.n), unsorted.toReversed().map((o) => o.n), unsorted.map((o) => o.n), unsorted.findLastIndex((o) => o.n < 3));
/// what has no properties, and registered symbols where an object was
let nothing; try { delete nothing.b; } catch (e) { console.log(e.name, e.message); } console.log(delete nothing?.b, delete (5).b);
const sym = Symbol("q"); for (const one of [sym, 5, "t"]) try { one.p = 1; } catch (e) { console.log(e.name, e.message); }
let named = {}; const first = new WeakRef(named); named = Symbol.for("k"); console.log(named.description, named === Symbol.for("k"), typeof first.deref());
/// calls in calls
function f(n) { return n === 0 ? 0 : 1 + f(n - 1); } console.log(f(3000));
try { (function g() { g(); })(); } catch (e) { console.log(e.name, e.message); }
const list = (n) => (n === 0 ? null : { n, next: list(n - 1) }); const l = list(800); const len = (x) => (x ? 1 + len(x.next) : 0); console.log(len(l));
const deepMap = (n) => (n === 0 ? [0] : [n].map((x) => deepMap(x - 1)[0] + 1)); console.log(deepMap(200));
class A { set v(x) { if (x > 0) this.v = x - 1; else console.log("done"); } } new A().v = 500;
const o = { toString() { return "o"; }, valueOf() { throw new RangeError("no"); } }; try { o + 1; } catch (e) { console.log(e.name, `${o}`); }
/// whether two buffers are over one block
agent("a", async () => { const b = new SharedArrayBuffer(4), other = new SharedArrayBuffer(4); postMessage(b, "c"); const back = await message("c"); console.log(sameBlock(b, back), b === back, sameBlock(b, other), sameBlock(new Int32Array(b), back)); for (const no of [{}, 1, undefined]) try { sameBlock(b, no); } catch (e) { console.log(e.name, e.message); } });
agent("c", async () => { postMessage(await message("a"), "a"); });
/// keys and lengths of what has none
for (const no of [1, "t", undefined]) try { Reflect.ownKeys(no); } catch (e) { console.log(e.name, e.message); } try { SharedArrayBuffer.prototype.byteLength; } catch (e) { console.log(e.name); }
/// views as arrays
const v = new Int32Array(new SharedArrayBuffer(12)); v[0] = -1; v[2] = 5; for (const n of v) console.log(n); for (const [i, n] of v.entries()) console.log(i, n); console.log([...v.keys()], [...v.values()], Array.from(v, (n) => n * 2), Math.max(...v)); const [first, ...others] = v; console.log(first, others);
console.log(v.reduce((a, b) => a + b), v.reduce((a, b) => a + b, 10), v.join("-"), v.join(), `${v}`, v.at(-1), v.at(9), v.at(-9), v.indexOf(5), v.indexOf(7), v.includes(0), v.some((n) => n > 4), v.every((n) => n > 4), v.find((n) => n > 0), v.find((n) => n > 9), v.findIndex((n) => n === 0), v.findIndex((n) => n > 9));
console.log(v.fill(9) === v, [...v]); v.fill(7, 1, -1); v.forEach((n, i, all) => { console.log(n, i, all === v); all[2] = 4; }); v.set([1, "2"], 1); console.log([...v], new Set(v).size, v.set(new Uint32Array(new SharedArrayBuffer(4)))); console.log(v[0]); for (const at of [-1, 3]) try { v.set([1], at); } catch (e) { console.log(e.name); } try { v.forEach(5); } catch (e) { console.log(e.name, e.message); } for (const n of v) { if (n === 1) break; console.log("before", n); }
class Words extends Uint32Array { *[Symbol.iterator]() { yield "own"; } } console.log([...new Words(new SharedArrayBuffer(8))]);
/// agents of all kinds of functions
async function work(name, from) { const total = new Uint32Array(await message("main")); Atomics.add(total, 0, from); postMessage(name, "main"); }
agent("a", () => work("a", 3)); agent("b", async () => work("b", 4)); agent("c", function () { setTimeout(() => postMessage(this === undefined, "main"), 20); }); const named = { async run() { postMessage(typeof this, "main"); } }; agent("d", named.run);
const total = new Uint32Array(new SharedArrayBuffer(4)); for (const name of ["a", "b"]) postMessage(total.buffer, name); console.log(await Promise.all(["a", "b"].map((name) => message(name))), total[0], await message("c"), await message("d"));
/// what messages carry
agent("b", async () => { const all = []; for (let got = await message("main"); got !== "end"; got = await message("main")) all.push(Object.is(got, -0) ? "-0" : got); console.log(all); });
for (const sent of [1.5, "é", -0, NaN, null, undefined, true, 2 ** 60, "x".repeat(300), ""]) postMessage(sent, "b"); for (const no of [Symbol("q"), Symbol.iterator, () => 1]) try { postMessage(no, "b"); } catch (e) { console.log(e.name, typeof no === "symbol" ? e.message : ""); } postMessage("end", "b");
/// a producer and a consumer
agent("producer", async () => { for (let i = 0; i < 5; i++) postMessage(i, "consumer"); postMessage("done", "consumer"); });
agent("consumer", async () => { let sum = 0; for (;;) { const item = await message("producer"); if (item === "done") break; sum += item; console.log("got", item); } console.log("sum", sum); });
/// a pipeline of three agents
agent("source", async () => { for (const word of ["alpha", "beta", "gamma"]) postMessage(word, "upper"); postMessage(null, "upper"); });
agent("upper", async () => { let word; while ((word = await message("source")) !== null) postMessage(word.toUpperCase(), "sink"); postMessage(null, "sink"); });
agent("sink", async () => { const all = []; let word = await message("upper"); while (word) { all.push(word); word = await message("upper"); } console.log(all.join(" "), all.length); });
/// to and fro, with a protocol
agent("front", async () => { const ask = async (...words) => { for (const one of words) postMessage(one, "counter"); return words[0] === "get" ? await message("counter") : undefined; }; await ask("add", 5); await ask("add", 7); console.log("total", await ask("get")); await ask("stop"); });
agent("counter", async () => { let total = 0; loop: while (true) switch (await message("front")) { case "add": total += await message("front"); break; case "get": postMessage(total, "front"); break; case "stop": break loop; } console.log("stopped"); });
/// a ring buffer of a writer and a reader
const SIZE = 4; class Ring { static words = SIZE + 2; constructor(buffer) { this.words = new Uint32Array(buffer); } get used() { return Atomics.load(this.words, 0) - Atomics.load(this.words, 1); } push(value) { if (this.used === SIZE) return false; Atomics.store(this.words, 2 + (Atomics.load(this.words, 0) % SIZE), value); Atomics.add(this.words, 0, 1); return true; } shift() { return this.used === 0 ? undefined : Atomics.load(this.words, 2 + (Atomics.add(this.words, 1, 1) % SIZE)); } }
agent("writer", async () => { const buffer = new SharedArrayBuffer(Ring.words * 4), ring = new Ring(buffer); postMessage(buffer, "reader"); let n = 0; while (ring.push(n * n)) n++; postMessage(n, "reader"); });
agent("reader", async () => { const ring = new Ring(await message("writer")), count = await message("writer"), got = []; for (let v; (v = ring.shift()) !== undefined;) got.push(v); console.log(count, got); });
/// messages as an async generator, and a body that fails
async function* messagesFrom(name, count) { for (let i = 0; i < count; i++) yield await message(name); }
agent("numbers", async () => { [3, 1, 2].forEach((n) => postMessage(n, "reader")); }); agent("reader", async () => { const all = []; for await (const n of messagesFrom("numbers", 3)) all.push(n); console.log(all.sort((a, b) => a - b)); throw new RangeError("fails"); });
/// a timer that posts
agent("clock", async () => { let ticks = 0; const timer = setInterval(() => { postMessage(++ticks, "listener"); if (ticks === 3) clearInterval(timer); }, 10); });
agent("listener", async () => { for (let i = 0; i < 3; i++) console.log("tick", await message("clock")); try { const got = await message("clock"); console.log("never", got); } finally { console.log("never"); } });
/// numbers in words, and parts of blocks
const a = new Uint32Array(new SharedArrayBuffer(16));
for (const n of [2 ** 60, -(2 ** 60), 2 ** 53 + 2, Infinity, -Infinity, NaN, -1, 1e100, "12", null, undefined, true, -0]) { console.log(Atomics.store(a, 0, n), a[0]); a[1] = n; console.log(a[1], Atomics.add(a, 2, n), a[2], Atomics.sub(a, 2, n), a[2]); }
console.log(Atomics.load(a, "1"), Atomics.load(a, 1.7), Atomics.load(a), Atomics.load(a, NaN));
for (const i of [-1, 4, Infinity, "x9"]) try { console.log(Atomics.load(a, i)); } catch (e) { console.log(e.name, e.message); }
for (const [offset, length] of [[2], [20], [-4], [4, 9], [4, -1], [16], [12, 1], ["4", "1"], [undefined, 2], [0, 0]]) try { const v = new Int32Array(a.buffer, offset, length); console.log(v.length, v.byteOffset, v.byteLength); } catch (e) { console.log(e.name, e.message); }
const part = new Int32Array(a.buffer, 4, 2); part[0] = -7; part[1] = 8; part[2] = 9; console.log([...a], [...part], part.length, part.subarray(1).length, part.subarray(1)[0], part.subarray(-1)[0], part.at(-1), Atomics.add(part, 1, 1), a[2], 1 in part, 2 in part);
try { Atomics.load(part, 2); } catch (e) { console.log(e.name); }
const whole = a.subarray(); whole.fill(3); console.log(a.join(), whole.buffer === a.buffer, sameBlock(part, whole), whole === a, Object.prototype.toString.call(whole), Object.prototype.toString.call(a.buffer), Object.entries(part));
try { Uint32Array.prototype.length; } catch (e) { console.log(e.name); }
const plain = new Uint32Array(new SharedArrayBuffer(8)); console.log(plain.byteLength, plain.byteOffset, plain.BYTES_PER_ELEMENT, Uint32Array.BYTES_PER_ELEMENT, plain instanceof Uint32Array, plain.constructor === Uint32Array, Object.keys(plain), 0 in plain, 5 in plain, plain.hasOwnProperty(0), JSON.stringify(plain), plain[9], plain[-1]); plain.name = "x"; for (const key in plain) console.log(key, plain[key]); console.log(Object.keys({ ...plain }));
/// a histogram by three agents, which a loop begins
const TEXT = "the quick brown fox jumps over the lazy dog", BINS = 26;
async function count(from, to) { const bins = new Uint32Array(await message("main")); for (const letter of TEXT.slice(from, to)) { const code = letter.charCodeAt(0) - 97; if (code >= 0 && code < BINS) Atomics.add(bins, code, 1); } postMessage(to - from, "main"); }
const parts = 3, size = Math.ceil(TEXT.length / parts), bins = new Uint32Array(new SharedArrayBuffer(4 * BINS));
for (let i = 0; i < parts; i++) { agent(`counter${i}`, () => count(i * size, Math.min((i + 1) * size, TEXT.length))); postMessage(bins.buffer, `counter${i}`); }
let total = 0; for (let i = 0; i < parts; i++) total += await message(`counter${i}`); console.log(total, bins[14], bins.indexOf(Math.max(...bins)), bins.reduce((a, b) => a + b));
/// a product of matrices, a row for each agent
const SIDE = 2; for (let r = 0; r < SIDE; r++) agent(`row${r}`, async () => { const a = new Int32Array(await message("main")), out = new Int32Array(await message("main"), 4 * SIDE * r, SIDE); for (let j = 0; j < SIDE; j++) for (let k = 0; k < SIDE; k++) out[j] += a[r * SIDE + k] * a[k * SIDE + j]; postMessage("done", "main"); });
const a = new Int32Array(new SharedArrayBuffer(4 * SIDE * SIDE)); a.set([1, 2, 3, -4]); const out = new Int32Array(new SharedArrayBuffer(a.byteLength)); for (let r = 0; r < SIDE; r++) for (const one of [a.buffer, out.buffer]) postMessage(one, `row${r}`); for (let r = 0; r < SIDE; r++) await message(`row${r}`); console.log([...out]);
/// a pool of agents, and a barrier
class Pool { #free; constructor(names) { this.#free = [...names]; } async run(job) { const name = this.#free.shift(); postMessage(job, name); const result = await message(name); this.#free.push(name); return result; } }
const fib = (n) => (n < 2 ? n : fib(n - 1) + fib(n - 2)); for (const name of ["w1", "w2"]) agent(name, async () => { for (let job; (job = await message("boss")) !== null;) postMessage(`${name}: fib(${job}) = ${fib(job)}`, "boss"); });
agent("boss", async () => { const pool = new Pool(["w1", "w2"]); for (const n of [5, 8, 10]) console.log(await pool.run(n)); for (const name of ["w1", "w2"]) postMessage(null, name); });
const NAMES = "abc"; agent("gate", async () => { for (const name of NAMES) await message(name); for (const name of NAMES) postMessage(LATER, name); }); const LATER = "go"; for (const name of NAMES) agent(name, async () => { await turn(); postMessage("here", "gate"); const got = await message("gate"); if (name === "c") console.log(name, "may", got); });
/// messages that an object of the script gives one by one, and texts of JSON
class Mailbox { constructor(from) { this.from = from; this.seen = []; } async *[Symbol.asyncIterator]() { for (;;) { const text = await message(this.from); if (text === "bye") return; this.seen.push(text); yield text; } } }
agent("alice", async () => { for (const text of ["hi", JSON.stringify({ to: "bob", tags: ["x"] }), "bye"]) postMessage(text, "bob"); }); agent("bob", async () => { const box = new Mailbox("alice"); for await (const text of box) console.log(text.startsWith("{") ? JSON.parse(text).tags : text); console.log(box.seen.length); });
/// functions and classes that agents have in common
class Base { kind() { return "base"; } }
class Square extends Base { static unit = 1; #s; constructor(s) { super(); this.#s = s; } get area() { return this.#s ** 2 * Square.unit; } kind() { return `square, a ${super.kind()}`; } }
function Old(n) { this.n = n; } Old.prototype.twice = function () { return 2 * this.n; }; const make = (Kind, ...all) => new Kind(...all);
class Cube extends Square {} const kept = [new Cube(2), new Old(5)], weak = new WeakMap([[Cube, make]]);
for (const name of ["a", "b"]) agent(name, async () => {
  const kinds = { Square, Old, make }, map = new WeakMap([[Square, "s"]]), ref = new WeakRef(Old), list = [make(Square, 3), kinds.make(kinds.Old, 4)]; await turn(); gc(); if (name === "b") await message("a");
  console.log(name, list[0].area, list[1].twice(), list[0].kind(), map.get(Square), ref.deref() === Old, list[0] instanceof Base, list[0].constructor === Square, Object.getPrototypeOf(list[1]) === Old.prototype); if (name === "a") postMessage(1, "b"); else postMessage(2, "main");
});
console.log(await message("b"), (gc(), kept[0].area), kept[1].twice(), weak.get(Cube) === make, kept[0] instanceof Base);
/// agents that a function begins, with functions of the script
function spawn(name, task) { agent(name, async () => { postMessage(task(await message("main")), "main"); }); return (value) => { postMessage(value, name); return message(name); }; }
const double = spawn("double", (n) => 2 * n), shout = spawn("shout", (s) => s.toUpperCase() + "!"); console.log(await double(21), await shout("hey"));
/// functions within agents, of what a loop captures
const words = new Uint32Array(new SharedArrayBuffer(8)), n = words.length;
for (let i = 0; i < 2; i++) agent(`w${i}`, async () => { const f = () => i, o = { f }, r = new WeakRef(o); await turn(); gc(); postMessage(`${r.deref() === o} ${o.f()} ${(() => f())()} ${n} ${n + 1}`, "main"); });
for (let i = 0; i < 2; i++) console.log(await message(`w${i}`));
/// functions of the language in agents, and a body with a name
const log = (...all) => console.log("[log]", ...all), { max } = Math, parse = JSON.parse, send = postMessage, bound = console.log.bind(null, "bound");
agent("a", async () => { const o = { max }, w = new WeakRef(o.max); await turn(); gc(); log("x", max(1, 2), parse("[1]").length, w.deref() === max, o.max(1, 3)); bound("y"); send(1, "w1"); });
for (const i of [1, 2]) agent(`w${i}`, async function me() { await message(i === 1 ? "a" : "w1"); const o = { me }; await turn(); gc(); console.log(i, typeof me, me.name, typeof o.me); postMessage(1, i === 1 ? "w2" : "main"); });
await message("w2"); console.log(new WeakRef(max).deref()(2, 4));
/// a function and its prototype hold each other
function Old(link) { this.link = link; } const refs = [new WeakRef(Old.prototype)]; let a = new Old(null); await turn(); gc(); console.log(refs[0].deref() === Old.prototype, Object.getPrototypeOf(a) === Old.prototype, new Old(a).link === a);
let F = function () {}; let o = new F(); const w = new WeakRef(F), p = new WeakRef(F.prototype); F = null; await turn(); gc(); console.log(o.constructor === w.deref(), p.deref() === Object.getPrototypeOf(o));
function* gen() { yield 1; } const g = new WeakRef(gen.prototype); await turn(); gc(); console.log(g.deref() === gen.prototype);
/// an async function that never waits
const f = async () => ({ n: 1 }), g = async (o) => { throw o; }; const { n } = await f(), r = [await f()]; console.log(n, r[0].n, (await (async () => f())()).n);
f(); const p = f(); await turn(); gc(); console.log((await p).n, (await Promise.all([1, 2].map(f))).map((o) => o.n)); f().then((o) => console.log("then", o.n));
try { await g({ n: 2 }); } catch (o) { gc(); console.log(o.n); } g({ n: 3 }).catch((o) => console.log("caught", o.n)); await null;
const w = new WeakRef(await f()); await turn(); gc(); console.log(w.deref());
/// a generator that returns an object
function* g() { return { n: 1 }; } function* h() { const x = yield* g(); yield x; return x; } console.log(g().next().value.n); const i = h(); console.log(i.next().value.n, i.next().value.n, i.next().value);
const j = h(); j.next(); gc(); console.log(j.return({ n: 7 }).value.n); async function* a() { yield { n: 3 }; gc(); return { n: 4 }; } const k = a(); console.log((await k.next()).value.n, (await k.next()).value.n);
for await (const o of a()) console.log(o.n); const l = a(); l.next(); console.log((await l.return({ n: 5 })).value.n); const r = new WeakRef(g().next().value); await turn(); gc(); console.log(r.deref());
/// an interval is set again after its call
let n = 0; const t = setInterval(() => { console.log("round", ++n); if (n === 2) clearInterval(t); else setTimeout(() => console.log("between"), 20); }, 20);
/// a timer's function that throws holds nothing any more
let o = { n: 1 }; const r = new WeakRef(o); setTimeout((x) => { throw new Error(`thrown ${x.n}`); }, 1, o); o = null; await turn(); await turn(); gc(); console.log(r.deref());
/// promises that are rejected, and exceptions
Promise.reject({ name: "none" }).catch(() => {}); Promise.reject(5); (async () => { throw new TypeError("in async"); })(); setTimeout(() => { throw new RangeError("in a timer"); }, 1); await turn(); throw new Error("at the top");
/// refusals that the script catches
const r1 = new FinalizationRegistry(() => {}), none = new WeakMap(), key = {}, words = new Int32Array(new SharedArrayBuffer(4)); let text = "none";
try { new WeakRef(none.get(key)); text = "never"; } catch (r) { text = `${r instanceof TypeError} ${String(r).split(":")[0]}`; } console.log(text);
for (const f of [() => none.set(5, key), () => new WeakSet([key, "x"]), () => r1.register(none.get(key), 1), () => r1.register(key, key), () => r1.register(key, 1, 2), () => r1.register(key, 1, null), () => r1.unregister(), () => Atomics.store(words, words[0] + 1, 3), () => Atomics.sub(words, 9, { valueOf() { console.log("never"); } }), () => new WeakRef(key)]) {
  try { f(); console.log("done"); } catch (r) { console.log(r.name); continue; } finally { console.log("then", words[0]); }
  console.log("went on");
}
agent("a", async () => { for (const one of [5, undefined, "t", "end"]) postMessage(one, "b"); });
agent("b", async () => { const s = new WeakSet(); for (let m; (m = await message("a")) !== "end";) try { s.add(m); console.log("never"); } catch { console.log("no", typeof m); } try { postMessage(() => 1, "a"); } catch (e) { console.log(e.name); } });
/// refusals that a caller, a promise or a generator's caller catches
const refuse = () => new WeakRef(5), named = (e) => console.log("caught", e.name); class Refusing { x = refuse(); static { try { refuse(); } catch (e) { named(e); } } }
try { new Refusing(); } catch (e) { named(e); } try { [1].forEach(refuse); } catch (e) { named(e); } try { `${{ toString: refuse }}`; } catch (e) { named(e); }
await (async () => refuse())().catch(named); await new Promise(refuse).catch(named); await Promise.resolve().then(refuse).catch(named); await Promise.resolve({ then: refuse }).catch(named); try { await { then() { throw { name: "own" }; } }; } catch (e) { named(e); }
function* steps() { yield 1; refuse(); } const one = steps(), two = steps(), three = (async function* () { yield 1; refuse(); })(); one.next(); two.next(); await three.next();
(async () => { try { one.next(); } catch (e) { named(e); } })(); setTimeout(() => { try { two.next(); } catch (e) { named(e); } }, 1); await three.next().catch(named);
/// what is refused while an iterator is open
const closes = (act) => ({ [Symbol.iterator]: () => ({ next: () => ({ value: 1, done: false }), return() { console.log("closed"); return act(); } }) });
function* own() { try { yield 1; } finally { console.log("own closed"); } } async function* slow() { try { yield 1; } finally { await null; console.log("slow closed"); } }
const refused = async (act) => { try { await act(); console.log("never"); } catch (e) { console.log(e.name); } };
await refused(() => { for (const x of closes(() => ({}))) new WeakRef(x); }); await refused(() => { for (const x of closes(() => { throw new RangeError("lost"); })) new WeakRef(x); }); await refused(() => { for (const x of closes(() => { throw new RangeError("kept"); })) break; });
await refused(() => new WeakSet(closes(() => ({})))); await refused(() => new WeakSet(own())); await refused(() => { for (const x of own()) new WeakRef(x); }); await refused(async () => { for await (const x of slow()) new WeakRef(x); });
await refused(async () => { for await (const x of slow()) throw new RangeError("own"); }); for await (const x of slow()) break;
/// what a finally ends with
function drops() { try { throw { n: 1 }; } finally { return "dropped"; } } function keeps() { const o = { n: 2 }; try { return o; } finally { gc(); } }
console.log(drops(), keeps().n); for (const x of [1, 2]) try { new WeakRef(x); } catch { continue; } finally { console.log("finally", x); }
const dropped = (() => { const o = { n: 3 }, w = new WeakRef(o); try { try { throw o; } finally { return w; } } catch { console.log("never"); } })(); await turn(); gc(); console.log(dropped.deref());
try { try { throw new Error("first"); } catch { new WeakRef(5); } finally { console.log("last"); } } catch (e) { console.log(e.name); }
/// what yield* passes on, and what comes back
function* g() { try { const got = yield 1; console.log("got", got); yield 2; } catch (e) { console.log("inner", e.name); yield 3 } finally { console.log("closing"); } return 9; }
function* h() { console.log("result", yield* g()); yield 4; }
const it = h(); it.next(); console.log(it.next("sent").value); try { console.log(it.throw(new TypeError("x")).value); } catch (e) { console.log("outer", e.name) } console.log(it.next().value, it.next().done);
const one = h(); one.next(); console.log(one.return(7).value, one.next().done);
function* refuses() { yield 1; new WeakRef(5); } function* outer() { try { yield* refuses(); } catch (e) { console.log("outer", e.name); } }
const two = outer(); two.next(); console.log(two.next().done); for (const x of outer()) console.log(x);
function* kept() { try { yield { n: 1 }; } finally { return { n: 2 }; } } function* over() { return yield* kept(); } const three = over(); console.log(three.next().value.n); gc(); console.log(three.return({ n: 3 }).value.n);
function* last() { return { n: 4 }; } function* all() { const o = yield* last(); gc(); yield o; yield* [5, 6]; } console.log([...all()].map((o) => o.n ?? o));
function* plain() { yield 1; } const thrown = plain(); thrown.next(); for (const n of [1, 2]) try { thrown.throw({ n }); } catch (e) { gc(); console.log(e.n); }
await Promise.reject({ n: 3 }).finally(() => gc()).catch((e) => { gc(); console.log(e.n); });
/// what yield* passes on in a generator that waits
function* g() { try { const got = yield { n: 1 }; console.log("got", got); yield 2; } catch (e) { console.log("inner", e.name); yield 3 } finally { console.log("closing"); } return { n: 9 }; }
async function* ag() { try { const got = yield { n: 4 }; console.log("agot", got); yield 5; } catch (e) { console.log("ainner", e.name); yield 6 } finally { console.log("aclosing"); } return { n: 10 }; }
async function* h(f) { const o = yield* f(); gc(); console.log("result", o.n); yield* [7, Promise.resolve(8)]; }
for (const f of [g, ag]) {
  for await (const x of h(f)) { gc(); console.log(x.n ?? x); }
  const it = h(f); await it.next(); console.log((await it.next("sent")).value, (await it.throw(new TypeError("x"))).value, (await it.next()).value, (await it.return({ n: 11 })).value.n);
  const other = h(f); await other.next(); const ended = await other.return({ n: 12 }); gc(); console.log(ended.value.n, ended.done, (await other.next()).done);
  const third = h(f); await third.next(); console.log((await third.throw(new RangeError("y"))).value, await third.throw({ name: "own" }).catch((e) => e.name));
}
