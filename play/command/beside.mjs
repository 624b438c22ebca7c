// A script beside node's own objects: of each line whether node writes it too, may write it otherwise and why, or differs where no
// engine may.

import { spawnSync } from "node:child_process";
import { fileURLToPath } from "node:url";
import { faultText } from "./script.mjs";
import { isPlan } from "../page/kinds.mjs";
import { scriptRun } from "../page/scripting.mjs";

const GOOD = 0, REFUSED = 1, NOT_STARTED = 125;
const LONGEST = 60_000;
const ON_NODE = fileURLToPath(new URL("on_node.mjs", import.meta.url));

/** What a script comes to here and on node: the table of its lines, and the status of a fault where node differs. */
export function besideNode(name, source, engine) {
  if (isPlan(source)) return { status: REFUSED, error: `${name}: '--engine' takes a script in JavaScript, and this is a plan\n` };
  const { status, fault, lines, hasChosen } = scriptRun(source, engine, {});
  if (status !== GOOD) return { status: REFUSED, error: faultText(name, source, fault) };
  const node = linesOnNode(source);
  if (node.failure) return { status: NOT_STARTED, error: `node ${node.failure}\n` };
  const rows = compared(lines, node.lines, hasChosen);
  return { status: rows.some(({ verdict }) => verdict === DIFFERS) ? REFUSED : GOOD, text: tableOf(rows) };
}

/** The lines that node writes for a script, which has until LONGEST to end. */
function linesOnNode(source) {
  const words = ["--expose-gc", ON_NODE];
  const { error, status, signal, stdout, stderr } = spawnSync(process.execPath, words, { input: source, encoding: "utf8", timeout: LONGEST });
  if (error || status !== 0) return { failure: `does not end well: ${error?.code ?? signal ?? status}\n${stderr ?? ""}`.trimEnd() };
  return { lines: stdout.split("\n").slice(0, -1) };
}

const SAME = "same", MAY = "may differ", DIFFERS = "differs";
/** Objects have no numbers on node. */
const plain = (text) => text.replace(/\b(object|symbol) \d+/g, "$1");

/** Each line of ours, and each that node alone writes, with the verdict. Lines of several agents come in any order: then only
    which lines come is compared. */
export function compared(ours, theirs, hasChosen) {
  const isOneAgent = new Set(ours.map(({ agent }) => agent)).size < 2;
  const texts = ours.map(({ text }) => plain(text));
  // As many as can be of those that every engine prints, and then as many others.
  const weights = ours.map(({ may }) => (may === null ? ours.length + 1 : 1));
  const taken = isOneAgent ? inOrder(texts, theirs, weights) : inAnyOrder(texts, theirs);
  const rows = ours.map(({ text, may }, at) => {
    if (taken[at] !== null) return { verdict: SAME, text };
    return may === null ? { verdict: DIFFERS, text, why: "Node does not write it." } : { verdict: MAY, text, why: may };
  });
  const known = new Set(taken);
  const alone = theirs.filter((_, at) => !known.has(at)).map((text) => ({ verdict: hasChosen ? MAY : DIFFERS, text, why: "Node alone writes it." }));
  return [...rows, ...alone];
}

/** For each text the place of the same among others, in the order of both, for as much weight as can be; null for each left out. */
function inOrder(texts, others, weights) {
  const most = Array.from({ length: texts.length + 1 }, () => new Array(others.length + 1).fill(0));
  for (let i = texts.length - 1; i >= 0; i -= 1) {
    for (let j = others.length - 1; j >= 0; j -= 1) {
      const without = Math.max(most[i + 1][j], most[i][j + 1]);
      most[i][j] = texts[i] === others[j] ? Math.max(most[i + 1][j + 1] + weights[i], without) : without;
    }
  }
  let j = 0;
  return texts.map((text, i) => {
    while (j < others.length && most[i][j + 1] === most[i][j]) j += 1;
    const isTaken = j < others.length && text === others[j] && most[i][j] === most[i + 1][j + 1] + weights[i];
    return isTaken ? j++ : null;
  });
}

function inAnyOrder(texts, others) {
  const left = new Map();
  others.forEach((text, at) => left.set(text, [...(left.get(text) ?? []), at]));
  return texts.map((text) => left.get(text)?.shift() ?? null);
}

const WIDTH = MAY.length + 2;
const reasonOf = (why) => (why ? `${" ".repeat(WIDTH)}(${why})\n` : "");
const tableOf = (rows) => rows.map(({ verdict, text, why }) => `${verdict.padEnd(WIDTH)}${text}\n${reasonOf(why)}`).join("");
