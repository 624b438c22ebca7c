// Runs scripts on node itself, one after another, in this process, which must have been begun with --expose-gc.

import "../../play/lessons/node.mjs";

const rest = () => new Promise((go) => setImmediate(go));
const LONGEST = 60_000;

/** Whether something that the script set is still to come. */
const isWaiting = () => process.getActiveResourcesInfo().some((name) => name === "Timeout" || name === "Immediate");

const nameOf = (error) => (error instanceof Error ? `${error.name}: ${error.message}` : String(error));

/** The lines that a script writes. What nobody catches is a line, as clusterrun writes it. */
export async function linesOnNode(source) {
  const lines = [];
  const uncaught = (error) => lines.push(`Uncaught ${nameOf(error)}`);
  const rejected = (error) => lines.push(`Uncaught (in promise) ${nameOf(error)}`);
  const write = process.stdout.write;
  process.stdout.write = (text) => lines.push(...String(text).split("\n").slice(0, -1));
  process.on("uncaughtException", uncaught);
  process.on("unhandledRejection", rejected);
  try {
    await Promise.race([import(`data:text/javascript,${encodeURIComponent(source)}`), new Promise((go) => setTimeout(go, LONGEST).unref())]);
  } catch (error) {
    uncaught(error);
  }
  const latest = Date.now() + LONGEST;
  do for (let turns = 0; turns < 4; turns += 1) await rest(); while (isWaiting() && Date.now() < latest);
  process.off("uncaughtException", uncaught);
  process.off("unhandledRejection", rejected);
  process.stdout.write = write;
  return lines;
}
