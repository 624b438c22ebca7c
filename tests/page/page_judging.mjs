// What the page says of the lines of scripts: whether every engine prints them. Writes a line of JSON for each script that is
// asked for: its lines, each with whether it may be otherwise; or its fault.
//
// Usage: node page_judging.mjs CLUSTERRUN_MJS SCRIPT..

import { readFileSync } from "node:fs";
import { pathToFileURL } from "node:url";
import { scriptRun } from "../../play/page/scripting.mjs";

const [module, ...paths] = process.argv.slice(2);
const engine = await import(pathToFileURL(module));
for (const path of paths) {
  const { lines, fault } = scriptRun(readFileSync(path, "utf8"), engine, {});
  console.log(JSON.stringify(fault ?? lines.map(({ text, may }) => [text, may !== null])));
}
