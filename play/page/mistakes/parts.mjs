// The parts of a fault and the part of a plan that has it: crates/es_explain/specs/Explaining.antt in JavaScript. The engine tells
// a fault as "refused S7 agent 0 job 1 command 1", with agents counted from 0 and the others from 1.

import { namesOf } from "../json.mjs";
import { planTrouble } from "./misshapen.mjs";

/** The parts of a fault: its code, and the numbers of its place where it has them. */
export function partsOf(fault) {
  const code = fault.match(/^refused (S\d+)/)[1];
  const numbers = [...fault.matchAll(/ (agent|callback|job|command) (\d+)/g)].map(([, word, number]) => [word, Number(number)]);
  return { code, ...Object.fromEntries(numbers) };
}

/** The keys and indices that lead to the part of a plan that has the fault. */
export function pathOf(parts, plan) {
  if (parts.agent === undefined) return inWhole(parts.code, plan);
  const { code, agent, callback, job, command } = parts, path = ["agents", agent];
  if (callback !== undefined) {
    const key = namesOf(memberAt(plan, [...path, "callbacks"]).value)[callback - 1];
    return [...path, "callbacks", key, ...(command === undefined ? [] : [command - 1])];
  }
  if (job === undefined) return code === "S5" ? [...path, "name"] : path;
  if (command !== undefined) return [...path, "jobs", job - 1, "run", command - 1];
  return [...path, "jobs", job - 1, code === "S10" ? "run" : "on"];
}

function inWhole(code, plan) {
  if (code === "S2") return planTrouble(plan)?.path ?? [];
  return { S3: ["version"], S4: ["agents"] }[code] ?? [];
}

/** What a path leads to: its value, and of an object's member the key. */
export function memberAt(plan, path) {
  return path.reduce(({ value }, part) => (value.items ? { value: value.items[part] } : value.members.get(part)), { value: plan });
}

/** Whether what is wrong is the key of a callback. */
export const isOfCallbackKey = ({ code, callback, command }) => code === "S5" && callback !== undefined && command === undefined;
