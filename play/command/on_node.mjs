// Runs a script of standard input on node's own objects, where its lines are compared: with the calls of the lessons, and with
// exceptions that nothing catches as clusterrun writes them.

import { readFileSync } from "node:fs";
import "../lessons/node.mjs";

const sayUncaught = (error, where = "") => {
  process.stdout.write(`Uncaught ${where}${error instanceof Error ? `${error.name}: ${error.message}` : String(error)}\n`);
};

process.on("uncaughtException", (error) => sayUncaught(error));
process.on("unhandledRejection", (error) => sayUncaught(error, "(in promise) "));
// To node all that a module throws is a promise that is rejected, so it is caught here.
import(`data:text/javascript,${encodeURIComponent(readFileSync(0, "utf8"))}`).catch((error) => sayUncaught(error));
