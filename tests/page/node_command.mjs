// Carries out commands of the command for node, all in one process. Standard input has a list of their words as JSON; the answers
// are written as one list.
//
// Usage: node node_command.mjs

import { readFileSync } from "node:fs";
import * as engine from "../../play/clusterrun.mjs";
import { carriedOut } from "../../play/command/command.mjs";
import { requestOf } from "../../play/command/words.mjs";

const answers = [];
for (const words of JSON.parse(readFileSync(0, "utf8"))) {
  const request = requestOf(words);
  answers.push(request.command ? await carriedOut(request, engine) : request);
}
console.log(JSON.stringify(answers));
