// Random scripts: closures, loops, classes, promises, generators, collections, weak things and refusals that are caught.
//
// A script prints numbers of objects, so that a line tells which object it is. It uses each of its variables at its end, since an
// engine may let go what nothing uses any more. Its callbacks say texts that begin with the script's name.

/** Numbers that look drawn, the same for each seed. */
export class Dice {
  #state;

  constructor(seed) {
    this.#state = seed * 2654435761 + 1;
  }

  below(count) {
    this.#state = (Math.imul(this.#state ^ (this.#state >>> 15), 0x2c1b3c6d) + 0x9e3779b9) | 0;
    let mixed = Math.imul(this.#state ^ (this.#state >>> 12), 0x297a2d39);
    mixed ^= mixed >>> 15;
    return (mixed >>> 0) % count;
  }

  one(list) {
    return list[this.below(list.length)];
  }
}

const HEAD = (name) => `
class Node { static made = 0; #secret; constructor(link) { this.id = ++Node.made; this.link = link; this.#secret = link; } get secret() { return this.#secret; } set secret(v) { this.#secret = v; } swap() { const s = this.#secret; this.#secret = this.link; this.link = s; return this; } }
class Leaf extends Node { extra = null; constructor(link, extra) { super(link); this.extra = extra; } get both() { return [this.link, this.extra]; } }
class Sub extends Leaf { static last = null; own = { id: 50, link: this.link }; constructor(link) { super(link, { id: 51, link: null }); gc(); Sub.last = this.own; } }
const collected = (o) => { gc(); return { id: 52, link: o }; };
const id = (value) => value?.id ?? "none";
const make = (link) => new Node(link);
function holder(kept) { let own = kept; return { get: () => own, put(value) { own = value; }, peek() { return id(own); } }; }
function* each(...all) { for (const one of all) yield one; }
async function later(value) { await null; return value; }
const soon = async (value) => ({ id: 13, link: value });
function* last(value) { yield null; return { id: 14, link: value }; }
const pick = ({ link, ...rest }) => ({ link, count: Object.keys(rest).length, id: rest.id });
const cache = new Map([["n", 1], ["o", 2]]), gone = [];
const registry = new FinalizationRegistry((held) => console.log("${name} cleaned", held));
const other = new FinalizationRegistry((held) => { if (cache.delete(held.key)) gone.push(held.key); });
const third = new FinalizationRegistry(({ key, node }) => { gone.push(key); d = node; });
let a = new Node(null), b = new Leaf(a, null), c = { id: 100, link: null }, d = null, h = holder(a), list = [b], map = new Map(), set = new Set(), weak = new WeakMap(), members = new WeakSet(), refs = [new WeakRef(a)], token = {};
function watch(o) { if (o) refs.push(new WeakRef(o)); }
function register(o, held, mine) { if (o) registry.register(o, held, mine ? o : token); }
function registerObject(o, key, node) { if (o && o !== node) (node ? third : other).register(o, { key, node }); }
function note(o, under) { if (o) weak.set(o, under); }
function show(o) { console.log("weak", weak.has(o), id(weak.get(o)), members.has(o)); }
function fill(n, link) { for (let i = 0; i < n; i++) { const o = make(link); if (i === 1) d = o; list.push(i % 2 ? o : null); } }
function closed(x, y, n) { const fs = []; for (const o of [x, y]) fs.push(() => o); return fs[n](); }
function first(...all) { for (const o of each(...all)) { if (o) return o; } return null; }
function relink(o, link) { if (o) o.link = link; }
async function* slow(...all) { for (const one of all) { await null; yield one; } }
async function firstOf(...all) { for await (const o of slow(...all)) if (o) return o; return null; }
function repeated(o, times) { let round = 0; return new Promise((go) => { const timer = setInterval(() => { console.log("tick", id(o)); if (++round === times) { clearInterval(timer); go(o); } }, 0); }); }
const viaThis = { kept: null, keep(o) { this.kept = o; return this; }, get it() { return this.kept; }, async wait() { await null; return this.kept; } };
let sym = Symbol("s"), pending = null;
function tried(act) { try { console.log("tried", id(act())); } catch (e) { console.log("refused", e.name); return; } finally { console.log("after"); } }
function* seeing(o) { try { yield o; refs.push(new WeakRef(o)); yield null; } finally { console.log("closed", id(o)); } }
let seen = seeing(null);
function linked(o, otherwise) { const { link: x = otherwise } = o ?? {}; return x; }
`;
const TAIL = 'console.log("end", [a, b, c, d].map(id), h.peek(), list.map(id), [...map].map(([k, v]) => (k?.id ?? k) + id(v)), [...set].map(id), id(Node.cache), id(viaThis.it), [token, registry, other, third, weak, members, sym, pending, cache, gone].length, refs.length);\n';

const OBJECTS = ["a", "b", "c", "d"];
const any = (dice) => dice.one([...OBJECTS, "Node.cache", "viaThis.it", "list.find((o) => o?.id > 3)", "[...map.values()].at(-1)", "h.get()", "list[0]", "list.at(-1)", 'map.get("x")', 'map.get("y")', "a?.link", "b?.link", "[...set][0]"]);
const fresh = (dice) => dice.one([
  `new Node(${any(dice)})`, `new Leaf(${any(dice)}, ${any(dice)})`, `new Sub(${any(dice)})`, `collected(${any(dice)})`, `{ id: ${100 + dice.below(900)}, link: ${any(dice)} }`, `make(${any(dice)})`,
  `await later(make(${any(dice)}))`, `await soon(${any(dice)})`, `last(${any(dice)}).return({ id: 15, link: ${any(dice)} }).value`,
  `(() => { const one = last(${any(dice)}); one.next(); return one.next().value; })()`, `(() => ({ id: ${1000 + dice.below(900)}, link: ${any(dice)} }))()`, `pick({ id: 7, link: ${any(dice)}, x: 1 })`,
]);
/** A value; some with a collection in the midst of the expression. */
const value = (dice) => (dice.below(25) === 0 ? `(gc(), ${plain(dice)})` : plain(dice));
const plain = (dice) => (dice.below(3) === 0 ? fresh(dice) : any(dice));
const text = (dice) => dice.one(['"x"', '"y"', '"z"']);
/** What may be held weakly, or not. */
const weakly = (dice) => (dice.below(2) ? any(dice) : dice.one(["5", "true", "sym", 'Symbol.for("s")', "refs", "undefined"]));
/** What is refused where a value can't be held weakly. */
const refusable = (dice) => dice.one([
  `void refs.push(new WeakRef(${weakly(dice)}))`, `weak.set(${weakly(dice)}, ${any(dice)})`, `members.add(${weakly(dice)})`, `registry.unregister(${weakly(dice)})`,
  `registry.register(${weakly(dice)}, "${"mno"[dice.below(3)]}", ${weakly(dice)})`, "registry.register(token, token)", "Node.made.missing()",
]);

/** Statements, each of a draw. */
const STATEMENTS = [
  (dice) => `${dice.one(OBJECTS)} = ${value(dice)};`,
  (dice) => `${dice.one(OBJECTS)} = null;`,
  (dice) => `relink(${value(dice)}, ${value(dice)});`,
  (dice) => `if (${any(dice)} instanceof Node) ${dice.one(OBJECTS)} = ${value(dice)}; else console.log("no node");`,
  (dice) => `[${dice.one(OBJECTS)}, ${dice.one(OBJECTS)}] = [${value(dice)}, ${value(dice)}];`,
  (dice) => `${dice.one(OBJECTS)} = linked(${any(dice)}, ${value(dice)});`,
  (dice) => `a?.swap?.(); b?.swap?.().swap(); if (a instanceof Node) a.secret = ${value(dice)};`,
  (dice) => `console.log("ids", ${OBJECTS.map((name) => `id(${name})`).join(", ")}, id(${any(dice)}), b?.both?.map(id));`,
  (dice) => `h.put(${value(dice)});`,
  (dice) => `h = holder(${value(dice)});`,
  (dice) => `list.push(${value(dice)});`,
  (dice) => dice.one(["list.shift();", "list.pop();", "list.reverse();", "list = list.filter((o) => o);", "list = list.map((o) => o?.link ?? o);", "list.splice(0, 1, a, b);", "list = [...list, c].slice(-3);"]),
  (dice) => `map.set(${text(dice)}, ${value(dice)});`,
  (dice) => dice.one([`map.delete(${text(dice)});`, "map.clear();", "for (const [k, v] of map) console.log(k, id(v));", "map = new Map([...map]);"]),
  (dice) => dice.one([`set.add(${value(dice)});`, `set.delete(${any(dice)});`, "set.clear();", "for (const v of set) console.log(id(v));"]),
  (dice) => `fill(${1 + dice.below(3)}, ${any(dice)});`,
  (dice) => `${dice.one(OBJECTS)} = closed(${value(dice)}, ${value(dice)}, ${dice.below(2)});`,
  (dice) => `${dice.one(OBJECTS)} = first(${value(dice)}, ${value(dice)});`,
  (dice) => `try { ${dice.one(OBJECTS)} = (${any(dice)}).link; throw ${dice.below(2) ? "new Error('thrown')" : value(dice)}; } catch (e) { console.log("caught", e?.name ?? id(e)); ${dice.below(2) ? "d = e?.id ? e : null;" : ""} } finally { c = { id: 5, link: c?.link }; }`,
  (dice) => `${dice.one(OBJECTS)} = await later(${value(dice)});`,
  (dice) => `Promise.resolve(${value(dice)}).then((o) => { ${dice.one(OBJECTS)} = o; return id(o); }).then((n) => console.log("then", n));`,
  (dice) => `setTimeout((o) => { console.log("timer", id(o)); d = ${dice.below(2) ? "o" : "null"}; }, 0, ${value(dice)});`,
  (dice) => `await Promise.all([later(${value(dice)}), ${value(dice)}]).then(([x, y]) => { a = x; b = y; });`,
  () => "await turn();",
  (dice) => `Node.cache = ${value(dice)};`,
  (dice) => `viaThis.keep(${value(dice)}).keep(${value(dice)});`,
  (dice) => `${dice.one(OBJECTS)} = await viaThis.keep(${value(dice)}).wait();`,
  (dice) => `${dice.one(OBJECTS)} = await firstOf(${value(dice)}, ${value(dice)});`,
  (dice) => `map.set(${any(dice)} ?? "n", ${value(dice)});`,
  (dice) => `map.delete(${any(dice)});`,
  (dice) => `${dice.one(OBJECTS)} = await repeated(${value(dice)}, ${1 + dice.below(3)});`,
  (dice) => `queueMicrotask(((o) => () => console.log("micro", id(o)))(${value(dice)}));`,
  (dice) => `c = Object.assign({ id: 11 }, { link: ${value(dice)} }, { ...${value(dice)} });`,
  (dice) => `d = { id: 12, get link() { return ${dice.one(OBJECTS)}; }, set link(v) { b = v; } };`,
  (dice) => `pending = later(${value(dice)});`,
  () => "await pending?.then((o) => { c = o; });",
  (dice) => `list = list.concat([${value(dice)}], ${value(dice)}).slice(-4);`,
  (dice) => dice.one(["list.sort((x, y) => (x?.id ?? 0) - (y?.id ?? 0));", "d = list.reduce((x, y) => (id(y) > id(x) ? y : x), a);", "list = Array.from(new Set(list));", "list = [list, [d]].flat();", "list.fill(c, 1, 2);"]),
  (dice) => `switch (${dice.below(3)}) { case 0: a = ${value(dice)}; case 1: b = ${value(dice)}; break; default: ({ link: c } = ${any(dice)} ?? {}); }`,
  (dice) => `d = [${value(dice)}, ${value(dice)}].map((o) => () => o)[${dice.below(2)}]();`,
  (dice) => `a = (${any(dice)}, ${value(dice)}) ?? ${value(dice)};`,
  (dice) => `b ??= ${value(dice)}; c &&= ${value(dice)};`,
  // Refusals that the script catches
  (dice) => `tried(() => ${refusable(dice)});`,
  (dice) => `try { ${refusable(dice)}; ${refusable(dice)}; c = ${value(dice)}; } catch { console.log("no"); ${dice.one(OBJECTS)} = ${value(dice)}; }`,
  (dice) => `await (async (o) => { await ${dice.one(["null", "turn()"])}; members.add(o); return id(o); })(${weakly(dice)}).then((n) => console.log("added", n), (e) => console.log("lost", e.name));`,
  (dice) => dice.one([`seen = seeing(${weakly(dice)});`, `setTimeout(() => tried(() => seen.next().value), 0);`, `tried(() => seen.next().value);`,
    `try { for (const o of seeing(${weakly(dice)})) members.add(o); } catch (e) { console.log("stopped", e.name); }`]),
  (dice) => `console.log("first", await Promise.any([new Promise(() => { ${refusable(dice)}; }), later(7)]));`,
  // Weak things
  (dice) => `watch(${value(dice)});`,
  (dice) => `register(${value(dice)}, "${"nmopq"[dice.below(5)]}", ${dice.below(2) === 0});`,
  (dice) => dice.one(['console.log("unregistered", registry.unregister(token));', "token = {};", "if (a) registry.unregister(a);"]),
  (dice) => `note(${value(dice)}, ${value(dice)});`,
  (dice) => `note(sym, ${value(dice)});`,
  () => "show(sym); sym = Symbol('t');",
  (dice) => `registerObject(${value(dice)}, "${"nmo"[dice.below(3)]}", ${dice.one(["null", value(dice)])});`,
  () => 'await turn(); gc(); await turn(); console.log("gone", gone.length, cache.size);',
  (dice) => `show(${any(dice)});`,
  (dice) => dice.one([`weak.delete(${any(dice)});`, `members.delete(${any(dice)});`, `members.add(${any(dice)} ?? token);`]),
  () => 'console.log("refs", refs.map((r) => id(r.deref())));',
  () => 'await turn(); gc(); await turn(); console.log("refs", refs.map((r) => id(r.deref())));',
  () => 'await turn(); gc(); console.log("weak", [a, b, c, d].map((o) => id(weak.get(o))));',
  (dice) => `${dice.one(OBJECTS)} = refs[${dice.below(2)}]?.deref() ?? null;`,
];

/** What an agent does to a block in its turn. */
const ON_BLOCK = [
  (dice) => `Atomics.store(words, ${dice.below(4)}, ${dice.below(100) - 20});`,
  (dice) => `console.log(me, Atomics.add(words, ${dice.below(4)}, ${dice.below(9) - 4}));`,
  (dice) => `console.log(me, Atomics.${dice.one(["and", "or", "xor", "exchange"])}(words, ${dice.below(4)}, ${dice.below(100) - 20}));`,
  (dice) => `console.log(me, Atomics.compareExchange(words, ${dice.below(4)}, words[${dice.below(4)}], ${dice.below(9) - 4}));`,
  (dice) => `words[${dice.below(4)}] = words[${dice.below(4)}] + ${dice.below(5)};`,
  () => "for (let i = 0; i < words.length; i++) console.log(me, i, Atomics.load(words, i));",
  (dice) => `try { Atomics.store(words, ${2 + dice.below(4)}, 1); } catch (e) { console.log(me, e.name); }`,
  (dice) => `words = new ${dice.one(["Uint32Array", "Int32Array"])}(words.buffer);`,
  (dice) => `console.log(me, [...words], words.indexOf(${dice.below(5)}), words.at(${-1 - dice.below(5)}), words.reduce((x, y) => x + y));`,
  (dice) => `words.fill(${dice.below(50)}, ${dice.below(4)}); words.set([${dice.below(9)}, ${-1 - dice.below(9)}], ${dice.below(3)});`,
  (dice) => `{ const part = new Int32Array(words.buffer, 4 * ${dice.below(3)}, 2); part[0] -= ${dice.below(9)}; console.log(me, ...part, Atomics.sub(part, 1, 3), sameBlock(part, words)); }`,
];

/** Two agents over one block, which send each other messages by turns. A line begins with the name of its agent. */
function randomAgents(dice) {
  const rounds = Array.from({ length: 1 + dice.below(4) }, () => dice.one(["7", '"text"', "undefined", "true", "words"]));
  const turns = (mine, other, begins) => rounds.map((sent, round) => {
    const acts = Array.from({ length: 1 + dice.below(3) }, () => dice.one(ON_BLOCK)(dice)).join(" ");
    const take = `{ const got = await message("${other}"); console.log(me, typeof got); if (typeof got === "object") words = new Uint32Array(got); }`;
    return (round % 2 === 0) === begins ? `${acts} postMessage(${sent}, "${other}");` : `${take} ${acts}`;
  }).join("\n  ");
  return `agent("a", async () => { const me = "a"; let words = new Uint32Array(new SharedArrayBuffer(16)); postMessage(words, "b");
  ${turns("a", "b", true)} });
agent("b", async () => { const me = "b"; let words = new Uint32Array(await message("a"));
  ${turns("b", "a", false)} });
`;
}

/** Functions and classes that stand outside of the agents. */
const SHARED = `
const unit = 3, word = "shared";
function id(o) { return o?.id ?? o ?? "none"; }
function twice(n) { return n * 2; }
const compose = (f, g) => (x) => f(g(x)), link = (id, link = null) => ({ id, link });
class Node { #secret; static kind = "node"; constructor(id, link) { this.id = id; this.link = link; this.#secret = link; } get secret() { return this.#secret; } static of(id) { return new this(id, null); } swap() { const s = this.#secret; this.#secret = this.link; this.link = s; return this; } }
class Leaf extends Node { more = null; constructor(id, link, more) { super(id, link); this.more = more; } get both() { return [this.link, this.more].map(id); } swap() { return super.swap(); } }
function holder(o) { return { get: () => o, put(v) { o = v; return this; } }; }
function* walk(o) { for (let at = o, left = 5; at?.id !== undefined && left > 0; at = at.link, left--) yield at.id; }
const later = async (o) => { await null; return o; };
function Old(id) { this.id = id; } Old.prototype.link = null; Old.prototype.twice = function () { return twice(this.id); };
`;
const OWN = ["o", "p", "q"];
const own = (dice) => dice.one([...OWN, ...OWN, "list[0]", "list.at(-1)", "o?.link", "p?.link", "h.get()", "ref?.deref()", "weak.get(Node)"]);
const madeBy = (dice) => dice.one([`new Node(n++, ${own(dice)})`, `new Leaf(n++, ${own(dice)}, ${own(dice)})`, `link(n++, ${own(dice)})`, "Node.of(n++)", "Leaf.of(n++)",
  "new Old(n++)", `await later(link(n++, ${own(dice)}))`, `holder(new Node(n++, ${own(dice)})).get()`, `new Mine(n++, ${own(dice)})`]);
const either = (dice) => (dice.below(2) ? madeBy(dice) : own(dice));
const code = (dice) => dice.one(["id", "twice", "link", "Node", "Leaf", "later", "walk", "Old", "Old.prototype", "Node.prototype", "Leaf.prototype.swap", "Mine"]);

/** What an agent does with functions and classes that others have too. */
const WITH_SHARED = [
  ...Array(3).fill((dice) => `${dice.one(OWN)} = ${either(dice)};`),
  (dice) => `${dice.one(OWN)} = null; ${dice.one(OWN)} = null;`,
  (dice) => `console.log(me, [...walk(${either(dice)})].join(), id(${own(dice)}), twice(n), compose(twice, (x) => x + unit)(n), word);`,
  (dice) => `o?.swap?.(); console.log(me, id(o?.secret), ${own(dice)}?.both, p?.twice?.());`,
  (dice) => `h = ${dice.one([`holder(${either(dice)})`, `h.put(${either(dice)})`])};`,
  (dice) => `list = [...list, ${either(dice)}].slice(-3);`,
  (dice) => `ref = new WeakRef(${dice.one([madeBy(dice), "o ?? twice", code(dice)])});`,
  (dice) => `weak.set(${dice.one([code(dice), "o ?? Node"])}, ${either(dice)});`,
  () => 'await turn(); gc(); console.log(me, "ref", id(ref?.deref()?.name ?? ref?.deref()));',
  (dice) => `{ const held = new WeakRef(${code(dice)}); await turn(); gc(); console.log(me, typeof held.deref(), held.deref() === ${code(dice)}); }`,
  (dice) => `console.log(me, ${own(dice)} instanceof ${dice.one(["Node", "Leaf", "Old", "Mine"])}, Node.of(n).constructor === Node, Node.kind, Leaf.name);`,
  (dice) => `console.log(me, id(weak.get(${code(dice)})), weak.has(${code(dice)}));`,
  (dice) => `setTimeout((x) => console.log(me, "timer", id(x), twice(2)), 5, ${either(dice)}); await turn();`,
  (dice) => `try { ${own(dice)}.missing(); } catch (e) { console.log(me, e.name); }`,
];

/** Two agents that use the same functions and classes, each with objects of its own, and that wait for each other now and then. */
function randomSharing(dice) {
  const body = (me, other) => {
    const acts = Array.from({ length: 5 + dice.below(10) }, () => dice.one(WITH_SHARED)(dice)).join("\n  ");
    return `agent("${me}", async () => { const me = "${me}", weak = new WeakMap(); let n = 1, o = null, p = null, q = null, list = [], h = holder(null), ref = null;
  class Mine extends ${dice.one(["Node", "Leaf"])} { get own() { return twice(this.id); } }
  ${acts}
  postMessage(n, "${other}"); console.log(me, await message("${other}"));
  console.log(me, "end", OWN.map(id), id(h.get()), list.map(id), [ref, weak, id, twice, compose, link, Node, Leaf, Mine, holder, walk, later, Old].length); });
`.replace("OWN", `[${OWN}]`);
  };
  return SHARED + body("a", "b") + body("b", "a");
}

/** A script of some statements, with the name that its callbacks say; each tenth is one of two agents, over a block or with functions
    in common. */
export function randomScript(seed) {
  const dice = new Dice(seed);
  if (seed % 10 === 0) return seed % 20 === 0 ? randomAgents(dice) : randomSharing(dice);
  const name = `s${seed}`;
  const body = Array.from({ length: 4 + dice.below(14) }, () => dice.one(STATEMENTS)(dice));
  return `${HEAD(name)}${body.join("\n")}\n${TAIL}`;
}
