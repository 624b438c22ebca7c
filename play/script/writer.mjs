// Writes the commands of one agent, with the place in the script from which each comes, and lets its machine do them.
//
// A command's operands are variables. The variables of a script are variables of the plan. What an expression makes on its way
// stands in temporaries, which are let go at the end of the statement: else they would hold what they show.

import { Run, assigns, meets, rename } from "./commands.mjs";
import { ScriptFault, broken } from "./faults.mjs";
import { Keys } from "./keys.mjs";
import { Machine } from "./machine.mjs";
import { Names } from "./names.mjs";
import { Uses } from "./uses.mjs";
import { hasIdentity, isInPlan, literalOf, planned } from "./values.mjs";
import { waysTo } from "./ways.mjs";

const MOST_COMMANDS = 10000;

export class Writer {
  keys = new Keys();
  uses = new Uses();
  #names = new Names();
  /** The list that is written now. */
  run = new Run();
  /** How many commands were done. */
  done = 0;
  /** Whether a command was refused in what is written now. */
  hasRefused = false;
  #postponed = [];
  /** The last primitive value that a command gave, and the variable that has it. */
  #told = null;
  /** Values that an expression still needs while it goes on: a variable that held one alone must not lose it. */
  #needed = new Map();
  /** Temporaries that hold such values after what held them has ended, by value. */
  #rescued = new Map();

  constructor(answers) {
    this.machine = new Machine(answers);
  }

  /** Writes a command and does it. `given` is what it makes or assigns. */
  do(node, command, given, place = {}) {
    if (this.hasRefused) {
      this.#postponed.push([node, command, given, place]);
      return undefined;
    }
    this.write(node, command, place);
    this.done += 1;
    return this.machine.perform(command, given);
  }

  write(node, command, place = {}) {
    if (this.run.commands.length === MOST_COMMANDS) {
      throw new ScriptFault("one job or callback would have more than 10,000 commands; await turn() begins another job", node);
    }
    this.run.commands.push(command);
    this.run.places.push({ start: node.start, end: node.end, ...place });
    this.uses.commands += 1;
  }

  /** Writes a command that is refused: its job or callback ends there. */
  refuse(node, command, error) {
    this.write(node, command);
    this.machine.events.push({ command, error });
    this.hasRefused = true;
  }

  /** A job begins with a message, which a temporary gets. */
  receive(job, message, temporaries) {
    const name = this.temporary(temporaries);
    temporaries.at(-1).job = job;
    this.machine.receive(name, message);
    if (!hasIdentity(message)) this.tell(message, name);
    return name;
  }

  /** A new job begins. First comes what could not be let go in one that a refusal ended. */
  beginJob(run) {
    this.run = run;
    this.hasRefused = false;
    for (const one of this.#postponed.splice(0)) this.do(...one);
  }

  // Names

  /** A variable of the plan that nothing else uses. */
  variable(wish) {
    return this.#names.variable(wish);
  }

  /** Lets a variable go, which nothing uses any more. */
  release(node, name) {
    this.#end(node, name);
    this.#names.release(name);
  }

  #end(node, name) {
    const value = this.machine.value(name);
    if (this.#needed.has(value) && value.variables.size === 1) this.#keepOn(node, name, value);
    this.clear(node, name, { temporary: true });
    if (this.#told?.name === name) this.#told = null;
  }

  /** What held a value alone ends, and an expression still needs the value: a temporary of its own holds it until then. */
  #keepOn(node, name, value) {
    if (!this.#rescued.has(value)) this.#rescued.set(value, []);
    this.do(node, ["copy", this.temporary(this.#rescued.get(value)), name], undefined, { temporary: true });
  }

  /** A variable that holds an object or a symbol holds nothing afterwards. */
  clear(node, name, place = {}) {
    if (hasIdentity(this.machine.value(name))) this.do(node, ["let", name, null], undefined, place);
  }

  /** A temporary, which is let go with the others of the statement. */
  temporary(temporaries) {
    const name = this.#names.temporary();
    temporaries.push({ name, run: this.run, from: this.run.commands.length });
    return name;
  }

  /** Lets temporaries go. */
  endTemporaries(node, temporaries) {
    const ended = temporaries.splice(0);
    for (const { name } of ended) this.#end(node, name);
    this.#names.releaseTemporaries(ended.map(({ name }) => name));
  }

  /** Lets temporaries go from a place on, but for those with a value that is still needed: an iterator's. */
  endUnneeded(node, temporaries, from) {
    const ended = temporaries.splice(from);
    temporaries.push(...ended.filter(({ name }) => this.#needed.has(this.machine.value(name))));
    this.endTemporaries(node, ended.filter((one) => !temporaries.includes(one)));
  }

  /** Writes a callback's commands to a list of their own. Gives what ends that. */
  apart(run) {
    const [kept, end] = [this.run, this.#names.apart()];
    this.run = run;
    this.#told = null;
    return () => {
      this.run = kept;
      end();
    };
  }

  // Values that an expression needs

  need(given) {
    const value = planned(given);
    if (hasIdentity(value)) this.#needed.set(value, (this.#needed.get(value) ?? 0) + 1);
  }

  /** The temporary that holds such a value after what held it has ended is from now on one of these. */
  needNoMore(given, temporaries) {
    const value = planned(given);
    const count = this.#needed.get(value);
    if (count > 1) {
      this.#needed.set(value, count - 1);
      return;
    }
    this.#needed.delete(value);
    temporaries.push(...(this.#rescued.get(value) ?? []));
    this.#rescued.delete(value);
  }

  /** Before a variable gets another value: what an expression still needs, and this variable alone holds, is copied. */
  #rescue(node, name, temporaries) {
    const old = this.machine.value(name);
    if (!this.#needed.has(old) || old.variables.size > 1) return;
    this.do(node, ["copy", this.temporary(temporaries), name], undefined, { temporary: true });
  }

  // Operands

  /** A variable that holds a value. */
  operand(node, given, temporaries) {
    const value = planned(given);
    if (!hasIdentity(value)) return this.teller(value) ?? this.#literal(node, value, temporaries);
    if (value.isEmptied) throw broken("a script has what its plan emptied");
    if (value.number === 0) return this.materialize(node, value, temporaries);
    const [name] = value.variables;
    return name ?? this.#bring(node, value, temporaries);
  }

  #literal(node, value, temporaries) {
    const name = this.temporary(temporaries);
    this.#let(node, name, value);
    return name;
  }

  /** A variable gets a value without an identity. */
  #let(node, name, value) {
    this.do(node, [value?.registered ? "symbolfor" : "let", name, literalOf(value)], value);
  }

  /** Reads a value that no variable holds from what holds it, by a shortest way from a variable. */
  #bring(node, value, temporaries) {
    const from = waysTo(this.machine, value);
    if (from === null) throw broken("no variable of the plan leads to a value of the script");
    return this.#follow(node, value, from, temporaries);
  }

  /** Whether a variable of the plan leads to a thing: else nothing uses it any more. */
  isReached(thing) {
    return thing.variables.size > 0 || waysTo(this.machine, thing) !== null;
  }

  #follow(node, value, from, temporaries) {
    const [known] = value.variables;
    if (known) return known;
    const { owner, key } = from.get(value);
    const name = this.temporary(temporaries);
    this.do(node, ["get", name, this.#follow(node, owner, from, temporaries), key]);
    return name;
  }

  // What commands make and give

  /** Makes an object or a symbol of the plan: `words` are the command's, without the variable. */
  make(node, thing, [word, ...operands], temporaries) {
    const name = this.temporary(temporaries);
    this.do(node, [word, name, ...operands], thing);
    return name;
  }

  /** Makes the object of a thing that had none, and all that it holds, and gives it to whatever holds the thing. */
  materialize(node, thing, temporaries) {
    const name = this.make(node, thing, thing.kind === "symbol" ? ["symbol"] : ["new"], temporaries);
    for (const [key, held] of thing.withheld ?? []) this.do(node, ["set", name, key, this.operand(node, held, temporaries)]);
    delete thing.withheld;
    const holders = [...thing.holders];
    thing.holders.clear();
    for (const holder of holders) holder.isNowInPlan(this, node, thing, temporaries);
    return [...thing.variables].at(-1);
  }

  /** What a command gives, whose first operand is the variable that gets it. */
  ask(node, [word, ...operands], temporaries, given) {
    const name = this.temporary(temporaries);
    const answer = this.do(node, [word, name, ...operands], given);
    if (!hasIdentity(answer)) this.tell(answer, name);
    return answer;
  }

  /** The last primitive value that was read is one that a command gave to this variable. */
  tell(value, name) {
    this.#told = { value, name, done: this.done };
  }

  /** The variable of a primitive value that was read last, if a command gave it. */
  teller(value) {
    const told = this.#told;
    return told !== null && told.done === this.done && Object.is(told.value, value) ? told.name : null;
  }

  // Assignments

  /** A variable gets a value of the plan. A temporary that was made for it becomes the variable, if it can. */
  assign(node, name, given, temporaries) {
    const value = planned(given);
    const teller = hasIdentity(value) ? null : this.teller(value);
    const made = temporaries.findLast((one) => (teller ? one.name === teller : this.machine.value(one.name) === value));
    if (made && this.#becomes(made, name, value)) {
      temporaries.splice(temporaries.indexOf(made), 1);
      this.#rename(made, name);
      return;
    }
    this.#rescue(node, name, temporaries);
    this.do(node, ["copy", name, teller ?? this.operand(node, value, temporaries)]);
  }

  /** Whether a temporary can be the variable from its beginning on: nothing else uses the variable in between. */
  #becomes({ name: made, run, from, job }, name, value) {
    if (run !== this.run || this.#needed.has(value) || this.#needed.has(this.machine.value(name))) return false;
    const since = run.commands.slice(from);
    if (job === undefined && !(since.length > 0 && assigns(since.shift(), made))) return false;
    return !since.some((command) => /^collect/.test(command[0]) || meets(command, name) || assigns(command, made));
  }

  #rename({ name: made, run, from, job }, name) {
    if (job !== undefined) job.on[1] = name;
    for (const command of run.commands.slice(from)) rename(command, made, name);
    const value = this.machine.value(made);
    this.machine.assign(made, undefined);
    this.machine.assign(name, value);
    this.#names.releaseTemporaries([made]);
    this.#told = hasIdentity(value) ? null : { value, name, done: this.done };
  }

  /** A variable that may hold an object gets a primitive value. */
  assignLiteral(node, name, value, temporaries) {
    this.#rescue(node, name, temporaries);
    this.#let(node, name, value);
  }

  // Properties

  /** The plan's name for a property of a thing. */
  key(owner, key) {
    return this.keys.property(key, owner.kind);
  }

  /** A thing holds a value under a key of the plan. */
  hold(node, owner, key, given, temporaries) {
    const value = planned(given);
    if (owner.number === 0) return this.#withhold(node, owner, key, value, temporaries);
    const old = owner.edges.get(key);
    if (!hasIdentity(value) && !hasIdentity(old)) return undefined;
    return this.do(node, ["set", this.operand(node, owner, temporaries), key, this.operand(node, value, temporaries)]);
  }

  /** A thing that is not in the plan holds only such things; else it has to be there. */
  #withhold(node, owner, key, value, temporaries) {
    owner.withheld ??= new Map();
    const old = owner.withheld.get(key);
    owner.withheld.delete(key);
    if (![...owner.withheld.values()].includes(old)) old?.holders?.delete(owner);
    if (!hasIdentity(value)) return;
    owner.withheld.set(key, value);
    if (value.number === 0) value.holders.add(owner);
    else this.materialize(node, owner, temporaries);
  }

  /** A thing holds nothing any more under a key. */
  drop(node, owner, key, temporaries) {
    if (owner.number === 0) this.#withhold(node, owner, key, undefined, temporaries);
    else if (hasIdentity(owner.edges.get(key))) {
      this.do(node, ["delete", this.temporary(temporaries), this.operand(node, owner, temporaries), key]);
    }
  }

  /** A value that a thing holds was read: from now on a temporary holds it. */
  fetch(node, owner, key, value, temporaries) {
    if (!isInPlan(value) || owner.number === 0 || owner.edges.get(key) !== planned(value)) return value;
    const name = this.temporary(temporaries);
    this.do(node, ["get", name, this.operand(node, owner, temporaries), key]);
    return value;
  }
}
