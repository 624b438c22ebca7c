// What every part of the interpreter needs: the context of running code, and the tables of what each kind of node does.

import { ScriptFault, Thrown } from "./faults.mjs";
import { isCallable, planned } from "./values.mjs";

const MOST_STEPS = 1000000;

/** By the node's type: a generator that gives an expression's value. */
export const evaluators = {};
/** By the node's type: a generator that gives how a statement ended; undefined where the next one follows. */
export const executors = {};

/** A function, a script or a job as it runs. */
export class Context {
  /** The temporaries of the statement that runs. */
  temporaries = [];
  /** Temporaries with the value that is returned. */
  returned = [];
  /** How many `try`, and what else goes on after something is thrown, stand around what runs now in this function. */
  guards = 0;

  /** The caller is the context of the function that called this one, or lets it go on. */
  constructor(agent, scope, { self = { value: undefined }, callee = null, newTarget, home = null, caller = null } = {}) {
    Object.assign(this, { agent, writer: agent.writer, scope, self, callee, newTarget, home, caller });
  }

  /** Whether the script goes on in this job after something is thrown now. */
  get isGuarded() {
    for (let cx = this; cx !== null; cx = cx.caller) if (cx.guards > 0) return true;
    return this.agent.goesOn;
  }

  operand(node, value) {
    return this.writer.operand(node, value, this.temporaries);
  }

  do(node, command, given, place) {
    return this.writer.do(node, command, given, place);
  }

  /** A command's answer. */
  ask(node, words, given) {
    return this.writer.ask(node, words, this.temporaries, given);
  }

  /** Writes a command that is refused. Where the script goes on after that, it stands behind `try`; else it ends its job. */
  refuse(node, command, error) {
    if (!this.isGuarded) {
      this.writer.refuse(node, command, error);
      return;
    }
    this.agent.world.needVersion(3);
    this.do(node, ["try", this.writer.temporary(this.temporaries), ...command], error);
  }

  /** Makes a new object of the plan. */
  make(node, thing, words = ["new"]) {
    this.writer.make(node, thing, words, this.temporaries);
    return thing;
  }

  /** Lets the statement's temporaries go, but for those with a value that is returned. */
  endStatement(node, given) {
    const { writer, temporaries } = this;
    const kept = planned(given);
    const stays = temporaries.findLast(({ name }) => kept !== undefined && writer.machine.value(name) === kept);
    if (stays !== undefined) {
      temporaries.splice(temporaries.indexOf(stays), 1);
      this.returned.push(stays);
    }
    writer.endTemporaries(node, temporaries);
  }
}

/** The value of an expression. A function or a class without a name of its own gets the given one. */
export function* evaluate(node, cx, name) {
  const evaluator = evaluators[node.type];
  if (evaluator === undefined) throw outside(node, `an expression of the kind ${node.type}`);
  if ((cx.agent.world.steps += 1) > MOST_STEPS) {
    throw new ScriptFault("the script goes on for too long: a plan has an end", node);
  }
  return yield* evaluator(node, cx, name);
}

/** Runs a statement, with temporaries of its own. */
export function* execute(node, cx) {
  const executor = executors[node.type];
  if (executor === undefined) throw outside(node, `a statement of the kind ${node.type}`);
  if ((cx.agent.world.steps += 1) > MOST_STEPS) {
    throw new ScriptFault("the script goes on for too long: a plan has an end", node);
  }
  const outer = cx.temporaries;
  cx.temporaries = [];
  let ended;
  try {
    ended = yield* executor(node, cx);
    return ended;
  } finally {
    const end = { start: node.end - 1, end: node.end };
    cx.endStatement(isWhole(node) ? end : node, ended?.value);
    cx.temporaries = outer;
  }
}

/** Whether the end of a statement is far from its beginning. */
const isWhole = ({ type }) => type === "BlockStatement" || type.startsWith("For");

/** Does something after which the script goes on, also where it throws. */
export function* guarded(cx, act) {
  cx.guards += 1;
  try {
    return yield* act();
  } finally {
    cx.guards -= 1;
  }
}

/** Values that are still needed while others are found. */
export function* needing(cx, value, act) {
  const { writer } = cx;
  const needed = { value };
  writer.need(value);
  writer.uses.write(needed, value);
  try {
    return yield* act();
  } finally {
    writer.uses.read(needed);
    writer.needNoMore(value, cx.temporaries);
  }
}

const TITLES = {
  ImportDeclaration: "import", ImportExpression: "import()", ExportNamedDeclaration: "export", ExportDefaultDeclaration: "export",
  ExportAllDeclaration: "export", WithStatement: "with", MetaProperty: "new.target and import.meta",
  TaggedTemplateExpression: "a tagged template",
};

export function outside(node, what) {
  return new ScriptFault(`${TITLES[node.type] ?? what} is not taken: the interpreter does not know it`, node);
}

/** Throws an error of the language, which the script can catch. */
export function raise(cx, node, name, message) {
  throw new Thrown(cx.agent.realm.error(name, message), node);
}

/** The host's functions that call the script's. */
export function* call(cx, node, callee, self, values) {
  if (!isCallable(callee)) raise(cx, node, "TypeError", `${textOfNode(cx, node)} is not a function`);
  return yield* cx.agent.realm.invoke(cx, node, callee, self, values);
}

export const textOfNode = (cx, node) => cx.agent.world.source.slice((node.callee ?? node).start, (node.callee ?? node).end);
