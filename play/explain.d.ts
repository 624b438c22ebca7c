import type { Answer, Options, Plan } from "./clusterrun.d.ts";

/**
 * Says for people what a plan's first fault is. With status 1 the text has the lines of `clusterrun explain`: the fault with its
 * place, a sentence, and mostly what was found there. With status 0 it has "ok" and a line for each warning. Else the answer is that
 * of `check`.
 *
 * @throws TypeError where the plan is neither text nor bytes nor a plain object, or the options are no object; RangeError where `memory`
 * is no number of bytes.
 */
export function explain(plan: Plan, options?: Options | null): Answer;

/** What the author of a plan may not have meant. Nothing is refused for it. */
export interface Warning {
  /** The name of the agent. */
  agent: string;
  /** A JSON Pointer (RFC 6901) to the command, as "/agents/0/jobs/2/run/5". */
  pointer: string;
  /** What is said of it. */
  sentence: string;
  /** The variable that it is about. */
  variable: string;
  /**
   * - "unassigned": the variable is read, and nothing assigns it.
   * - "assigned later": the variable is read before anything assigns it.
   * - "unread": the variable gets a value, and nothing reads it.
   * - "held target": the target of a registration is its held value too.
   */
  cause: "unassigned" | "assigned later" | "unread" | "held target";
}

/** The warnings of a plan. */
export interface Warnings extends Answer {
  /**
   * With status 0 the lines of `clusterrun explain` after "ok", each with a line end; empty without a warning. Else it is that of
   * `check`.
   */
  text: string;
  /** The same, one by one; none with another status. */
  warnings: Warning[];
}

/**
 * Says what the author of a plan without a fault may not have meant. The status is that of `check`: warnings do not change it.
 *
 * @throws TypeError where the plan is neither text nor bytes nor a plain object, or the options are no object; RangeError where `memory`
 * is no number of bytes.
 */
export function warnings(plan: Plan, options?: Options | null): Warnings;
