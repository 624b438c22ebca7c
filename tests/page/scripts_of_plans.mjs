// A plan as a script in JavaScript: each job is a timer's, so an exception ends that job alone. An agent is one of the script; the
// only agent of a plan is what stands outside of all agents.

const literal = (value) => (value === null ? "undefined" : JSON.stringify(value));
const v = (name) => `v_${name}`;
const all = (names) => names.map(v).join(", ");
const gives = (write) => (x, ...operands) => `${v(x)} = ${write(...operands)}`;

/** An index or a number: a variable has a name. */
const amount = (given) => (typeof given === "string" ? v(given) : given);

/** The methods of Atomics by their commands. */
const ATOMICS = {
  load: "load", store: "store", add: "add", sub: "sub", and: "and", or: "or", xor: "xor", exchange: "exchange", compareexchange: "compareExchange",
  wait: "wait", notify: "notify",
};
/** Those that take a view of signed words alone. */
const SIGNED = new Set(["wait", "notify"]);

/** What makes a thing, and the class of which it is one. */
const CLASSES = { weakmap: "WeakMap", weakset: "WeakSet" };

/** What a command with its operands is in JavaScript, in a plan with such words and keys.
    - Where a plan makes nothing of a kind, it tries others in its place. These may have a method of the same name, so that of the
      class is called; and a view is over none.
    - A plan's objects have no prototype. Where it uses what an object of JavaScript inherits, its objects must not have one either.
    - Keys are written as the report writes them. */
function formsOf(words, keys) {
  const view = (b, name = "Uint32Array") => (words.has("buffer") ? `new ${name}(${v(b)})` : v(b));
  const method = (maker, name) => (o, ...operands) => (
    words.has(maker) ? `${v(o)}.${name}(${all(operands)})` : `${CLASSES[maker]}.prototype.${name}.call(${all([o, ...operands])})`);
  const object = keys.some((key) => key in {}) ? "Object.create(null)" : "{}";
  const atomics = Object.entries(ATOMICS).map(([word, name]) => {
    const type = SIGNED.has(word) ? "Int32Array" : "Uint32Array";
    const write = (b, ...numbers) => `Atomics.${name}(${[view(b, type), ...numbers.map(amount)].join(", ")})`;
    return [word, word === "store" ? write : gives(write)];
  });
  return {
    ...Object.fromEntries(atomics),
    let: gives(literal), new: gives(() => object), symbol: gives(() => "Symbol()"), symbolfor: gives((text) => `Symbol.for(${literal(text)})`),
    copy: gives(v), same: gives((y, z) => `${v(y)} === ${v(z)}`), say: (y) => `console.log(${v(y)})`,
    set: (o, key, y) => `${v(o)}.${key} = ${v(y)}`, get: gives((o, key) => `${v(o)}.${key}`), delete: gives((o, key) => `delete ${v(o)}.${key}`),
    keys: (o) => `console.log(["keys", ...Reflect.ownKeys(${v(o)})].join(" "))`,
    weakref: gives((t) => `new WeakRef(${v(t)})`), deref: gives((w) => `${v(w)}.deref()`),
    weakmap: gives(() => "new WeakMap()"), wmset: method("weakmap", "set"), wmget: gives(method("weakmap", "get")),
    wmhas: gives(method("weakmap", "has")), wmdelete: gives(method("weakmap", "delete")),
    weakset: gives(() => "new WeakSet()"), wsadd: method("weakset", "add"),
    wshas: gives(method("weakset", "has")), wsdelete: gives(method("weakset", "delete")),
    registry: gives((callback) => `new FinalizationRegistry(c_${callback})`),
    register: (r, ...operands) => `${v(r)}.register(${all(operands)})`, unregister: gives((r, t) => `${v(r)}.unregister(${v(t)})`),
    buffer: gives((count) => `new SharedArrayBuffer(${4 * count})`), length: gives((b) => `${view(b)}.length`),
    sameblock: gives((b, d) => `sameBlock(${v(b)}, ${v(d)})`), post: (agent, y) => `postMessage(${v(y)}, "${agent}")`, collect: () => "gc()",
  };
}

const KEYED = new Set(["set", "get", "delete"]);
const isName = (operand) => /^[A-Za-z_]\w*$/.test(operand);

/** The commands of an agent: `try` as one that has its variable, and the command behind it as another. */
const commandsOf = ({ callbacks, jobs }) => [...Object.values(callbacks).flat(), ...jobs.flatMap(({ run }) => run)].flatMap(
  (command) => (command[0] === "try" ? [command.slice(0, 2), command.slice(2)] : [command]));

/** A command as a statement. */
function statementOf([word, ...operands], forms) {
  if (word !== "try") return `${forms[word](...operands)};`;
  const [x, ...command] = operands;
  return `try { ${statementOf(command, forms)} } catch (error) { ${v(x)} = String(error); }`;
}

/** What an agent does, as statements. */
function bodyOf({ callbacks, jobs }, forms) {
  const lines = (run) => run.map((command) => `  ${statementOf(command, forms)}\n`).join("");
  const names = [...commandsOf({ callbacks, jobs }).flatMap(([, ...operands]) => operands), ...jobs.flatMap(({ on = [] }) => on)];
  const job = ({ on, run }, at) => {
    const [head, first] = on ? ["async () =>", `  ${v(on[1])} = await message("${on[0]}");\n`] : ["() =>", ""];
    return `setTimeout(${head} {\n${first}${lines(run)}}, ${10 * at});\n`;
  };
  return [
    `let ${all([...new Set(["held", ...names.filter(isName)])])};\n`,
    ...Object.entries(callbacks).map(([name, run]) => `function c_${name}(held) {\n  v_held = held;\n${lines(run)}}\n`),
    ...jobs.map(job),
  ].join("");
}

/** The script of a plan. */
export function scriptOf({ agents }) {
  const commands = agents.flatMap(commandsOf);
  const keys = commands.filter(([word]) => KEYED.has(word)).map(([word, first, second, third]) => (word === "set" ? second : third));
  const forms = formsOf(new Set(commands.map(([word]) => word)), keys);
  if (agents.length === 1) return bodyOf(agents[0], forms);
  return agents.map((agent) => `agent("${agent.name}", async () => {\n${bodyOf(agent, forms)}});\n`).join("");
}
