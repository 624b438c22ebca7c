// A trace as rows for people, of the lines of JSON that the engine gives; docs/TRACES.md says how rows look.

import { wordsOf } from "../page/words.mjs";

const EVENT_WIDTH = 32;
const LEDGER = "-";

export function rowsOf(trace) {
  const lines = trace.split("\n").filter((line) => line !== "").map((line) => JSON.parse(line));
  const width = lines.reduce((widest, { agent }) => Math.max(widest, agent?.length ?? 0), 0);
  const row = (name, event, answer) => {
    const column = `${name.padEnd(width)}  ${event}`;
    return answer === "" ? `${column}\n` : `${column.padEnd(width + 2 + EVENT_WIDTH)}  ${answer}\n`;
  };
  return lines.flatMap((line) => partsOf(line).map(({ event, answer }) => row(line.event ? line.agent : LEDGER, event, answer))).join("");
}

/** The rows of a line, without names. */
function partsOf(line) {
  if (line.event === "kept") return [{ event: `  ${line.identity}`, answer: keptBy(line.by) }];
  const emptied = line.event === "emptied" ? line.identities : [];
  return [wordsOf(line), ...emptied.map((identity) => ({ event: `  ${identity}`, answer: "emptied" }))];
}

function keptBy(by) {
  if (by.variable !== undefined) return `kept by variable ${by.variable}`;
  if (by.keptalive) return "kept by KeptAlive";
  if (by.registry) return "kept as a FinalizationRegistry";
  if (by.registration !== undefined) return `kept by registration ${by.registration}`;
  if (by.object !== undefined) return `kept by property ${by.property} of ${by.object}`;
  return `kept by the entry of ${by.weakmap} under ${by.key}`;
}
