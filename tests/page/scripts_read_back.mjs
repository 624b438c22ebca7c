// The plans of the corpus, written as scripts and read back: what each agent says is what the plan's report says, and how it ends,
// and what becomes of blocks and messages.

import { readFileSync, readdirSync } from "node:fs";
import { scriptOf } from "./scripts_of_plans.mjs";

const TOP = new URL("../../engines/corpus/", import.meta.url);

/** Plans that no script has, since JavaScript gives a value where the command is refused, or has other words for the refusal. */
export const NOT_AS_SCRIPTS = {
  "blocks/not-a-buffer.json": "the length of another object than a block is a property of it, as any",
  "caught/text.json": "an error has the words of its engine",
  "caught/writes-no-word.json": "a text is a number with an exponent too",
  "values/get-of-a-number.json": "a number has properties, by its prototype",
};

/** A line without its kind, quotes and numbers of objects; of an exception only which it is. */
const plainLine = (line) => line.replace(/^(say |error |Uncaught (\(in promise\) )?)/, "").replace(/^"(.*)"$/, "$1")
  .replace(/^(\w+Error): .*/, "$1").replace(/^symbolfor "(.*)"$/, "Symbol($1)").replace(/^symbol \d+$/, "Symbol()").replace(/^object \d+/, "object");

/** The lines of each agent in a report, and those of the cluster. */
function partsOf(report) {
  const [agents, cluster] = report.split("cluster\n");
  return { agents: agents.split(/^agent .*\n/m).slice(1).map((part) => part.split("\n")), cluster };
}

const isSaid = (line) => /^(say|error|keys)\b/.test(line);
const isEnd = (line) => line.startsWith("end ");

/** What a plan's report says. */
function saidBy(report) {
  const { agents, cluster } = partsOf(report);
  return JSON.stringify([agents.map((lines) => lines.filter((line) => isSaid(line) || isEnd(line)).map(plainLine)), cluster]);
}

/** What a script says, and the report of its plan. */
function saidAs(source, { engine, planOf, linesOf }) {
  try {
    const { plan, text, trace, places } = planOf(source, { engine });
    const lines = linesOf(trace, places);
    const { agents, cluster } = partsOf(engine.run(text).text);
    const of = ({ name }, at) => [...lines.filter(({ agent }) => agent === name).map((line) => plainLine(line.text)), agents[at].find(isEnd)];
    return JSON.stringify([plan.agents.map(of), cluster]);
  } catch (error) {
    return `${error.name}: ${error.message}`;
  }
}

/** Of each plan its name, what the script of it says, and what it should say. */
export function* readBack(interpreter) {
  const folders = readdirSync(TOP, { withFileTypes: true }).filter((entry) => entry.isDirectory());
  const names = folders.flatMap(({ name }) => readdirSync(new URL(`${name}/`, TOP)).map((file) => `${name}/${file}`));
  for (const name of names.filter((one) => one.endsWith(".json") && !one.endsWith("/about.json"))) {
    const source = scriptOf(JSON.parse(readFileSync(new URL(name, TOP), "utf8")));
    const wanted = saidBy(readFileSync(new URL(name.replace(/json$/, "report"), TOP), "utf8"));
    yield { name, found: saidAs(source, interpreter), wanted };
  }
}
