// What the documents say of commands in JavaScript: the second column of the table of commands in docs/PLANS.md, what docs/SCRIPTS.md
// has beside that, and its first script with its plan.

import { readFileSync } from "node:fs";

const read = (path) => readFileSync(new URL(`../../${path}`, import.meta.url), "utf8");

/** The letters of the tables: variables that have what their commands take, and literals. */
const LITERALS = { L: 5, I: 1, N: 3, P: 7 };
const BEFORE = `const ${Object.entries(LITERALS).map(([name, value]) => `${name} = ${value}`).join(", ")};
let X = {}, Y = {}, Z = {}, O = { K: {} }, H = {}, T = {}, B = new Int32Array(new SharedArrayBuffer(16)), D = new Uint32Array(new SharedArrayBuffer(4));
const W = new WeakRef(Y), M = new WeakMap(), S = new WeakSet(), R = new FinalizationRegistry(() => {});
function C() {}
agent("A", async () => {});
await turn();
`;

/** The commands that no script gives. */
const GIVEN_BY_NONE = ["keys O", "sub X B I N"];

/** The rows of the table below a heading: the words of the first two columns that are code. */
function rowsOf(path, heading) {
  const table = read(path).split(`\n## ${heading}\n`)[1].split("\n## ")[0];
  return [...table.matchAll(/^\| (`.*?`) \|(.*?)\|/gm)].map((row) => row.slice(1).map((cell) => [...cell.matchAll(/`([^`]*)`/g)].map(([, code]) => code)));
}

/** What a line of JavaScript does in a job of its own. */
function commandsOf(textOf, line) {
  const text = textOf(`${BEFORE}${line};`);
  return text === null ? [] : JSON.parse(text).agents[0].jobs.at(-1).run;
}

/** Whether a command is what a form of the table says. A value that nobody uses is given to a temporary. COMMAND stands for another
    command. */
function isOf(form, given) {
  const words = form.split(" "), command = words.at(-1) === "COMMAND" ? [...given.slice(0, 2), "COMMAND"] : given;
  return words.length === command.length && words.every((word, at) => {
    if (word === "X" && /^_\d+$/.test(command[at])) return true;
    return command[at] === (at > 0 && word in LITERALS ? LITERALS[word] : word);
  });
}

/** The JavaScript of each form of each command gives it. */
function* ofPlans(textOf) {
  const rows = rowsOf("docs/PLANS.md", "Commands");
  const commands = JSON.parse(read("tests/rows/commands.json"));
  const words = Object.keys(commands);
  const named = rows.map(([[form]]) => form.split(" ")[0]);
  yield { holds: named.sort().join() === words.sort().join(), what: "docs/PLANS.md has a row for each command" };
  for (const [forms, lines] of rows) {
    if (GIVEN_BY_NONE.includes(forms[0])) yield { holds: lines.length === 0, what: `docs/PLANS.md says that no script gives ${forms[0]}` };
    else yield { holds: forms.length === lines.length, what: `docs/PLANS.md has JavaScript for each form of ${forms[0]}` };
    for (const [at, line] of lines.entries()) {
      const found = commandsOf(textOf, line);
      yield { holds: found.some((command) => isOf(forms[at], command)), what: `docs/PLANS.md, ${forms[at]}: ${line} gives ${JSON.stringify(found)}` };
    }
  }
}

/** What else gives a command. */
function* ofScripts(textOf) {
  for (const [[word], lines] of rowsOf("docs/SCRIPTS.md", "Each command in JavaScript")) {
    for (const line of lines) {
      const found = commandsOf(textOf, line);
      yield { holds: found.some(([one]) => one === word), what: `docs/SCRIPTS.md, ${word}: ${line} gives ${JSON.stringify(found)}` };
    }
  }
}

/** What the documents say, and whether it holds. `textOf` gives the text of a script's plan. */
export function* documentsHold(textOf) {
  const [script, plan] = ["js", "json"].map((kind) => read("docs/SCRIPTS.md").split(`\n\`\`\`${kind}\n`)[1].split("```")[0]);
  yield { holds: textOf(script) === plan, what: "docs/SCRIPTS.md has the plan of its script" };
  yield* ofPlans(textOf);
  yield* ofScripts(textOf);
}
