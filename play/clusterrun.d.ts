/**
 * clusterrun as a module: weak references and shared memory of ECMA-262, executable. A plan is JSON and a report is text;
 * docs/PLANS.md of the repository says how both are written. The agents of a plan run by turns, and each plan has one
 * report. The module opens no file and no connection, and keeps nothing of a plan after its call.
 *
 * It needs 64-bit WebAssembly memory: node 24 or later, an older one with --experimental-wasm-memory64, or a page in a
 * browser that has it. Where it is missing, the import fails with an Error that says so.
 */

/**
 * The bytes of a plan; its text, which stands for its bytes in UTF-8; or a plain object, which stands for what JSON.stringify
 * makes of it.
 */
export type Plan = string | ArrayBuffer | ArrayBufferView | PlanObject;

/**
 * A plan as an object. The types say which parts it has, and a call says whether each command is right. In a list JSON.stringify
 * makes null of undefined, of NaN and of a function; and null stands for undefined in a plan.
 */
export interface PlanObject {
  /** 1, 2 or 3. */
  version: number;
  agents: readonly PlanAgent[];
}

/** An agent of a plan. */
export interface PlanAgent {
  name: string;
  /** The commands of each callback, by its name. */
  callbacks: Readonly<Record<string, readonly PlanCommand[]>>;
  jobs: readonly PlanJob[];
}

/** A job of a plan. */
export interface PlanJob {
  /** If it waits for a message: the name of the agent that posts it, and the variable that gets its value. */
  on?: readonly string[];
  run: readonly PlanCommand[];
}

/** A command of a plan: its word and its operands, as `["new", "a"]`. */
export type PlanCommand = readonly PlainValue[];

/** How a call may go. */
export interface Options {
  /**
   * The bytes that the call may take, the plan and the answer among them: a whole number, 4 GiB without it. A call that
   * needs more, or more than the host has, answers with status 3.
   */
  memory?: number;
}

/** How a trace may go. */
export interface TraceOptions extends Options {
  /**
   * Whether it tells of each value that stays after a collection what keeps it, and not only of what is held weakly and of
   * what keeps that: `false` without it.
   */
  all?: boolean;
}

/** What there is to say of a plan. */
export interface Answer {
  /**
   * The program's status.
   * - 0: all went well.
   * - 1: the plan has a fault.
   * - 3: memory ran out. The next call begins anew.
   * - 4: the plan has more than 4,294,967,295 bytes.
   */
  status: 0 | 1 | 3 | 4;
  /**
   * With status 0 the report, the lines of the trace, or "ok" and a line end where the plan was only checked. With status 1 the first fault, as
   * "refused S7 agent 0 job 1 command 1", without a line end; docs/ERRORS.md has them all. Else it is empty.
   */
  text: string;
}

/**
 * Runs a plan.
 *
 * @throws TypeError where the plan is neither text nor bytes nor a plain object, or the options are no object; RangeError where `memory`
 * is no number of bytes.
 */
export function run(plan: Plan, options?: Options | null): Answer;

/**
 * Checks a plan and does not run it.
 *
 * @throws TypeError where the plan is neither text nor bytes nor a plain object, or the options are no object; RangeError where `memory`
 * is no number of bytes.
 */
export function check(plan: Plan, options?: Options | null): Answer;

/**
 * Runs a plan, and tells what happened, event by event: a JSON object on each line, as docs/TRACES.md of the repository says.
 * Each line is a `TraceLine`:
 *
 *     const lines: TraceLine[] = trace(plan).text.trimEnd().split("\n").map((line) => JSON.parse(line));
 *
 * @throws TypeError where the plan is neither text nor bytes nor a plain object, or the options are no object; RangeError where `memory`
 * is no number of bytes.
 */
export function trace(plan: Plan, options?: TraceOptions | null): Answer;

/** Which version this is, the commit of its sources, and the Rattle kit that proved them. */
export const built: Readonly<{ version: string; commit: string; kit: string }>;

/** A value that JSON has; null stands for undefined. */
export type PlainValue = null | boolean | number | string;

/** A value as a trace has it. Objects and symbols are told by their numbers, which are each agent's own. */
export type TraceValue = PlainValue | { symbolfor: string } | { object: number } | { symbol: number };

/** What a message carries: a value without an identity, or a block with the message's own ticket of it. */
export type TraceCarried = PlainValue | { symbolfor: string } | { block: number; ticket: number };

/** A command as the plan has it: its word and its operands. */
export type TraceCommand = [word: string, ...operands: PlainValue[]];

/** What a command gave: null where it assigns no variable, the value that it assigns, or the keys of an object. */
export type TraceAnswer = null | { gives: TraceValue } | { keys: string[] };

/** What keeps a value: the last step of a shortest way to it. */
export type TraceReason =
  | { variable: string }
  | { keptalive: true }
  | { registry: true }
  | { registration: number }
  | { object: number; property: string }
  | { weakmap: number; key: number };

/** A line of an agent. */
export type AgentLine =
  | { agent: string; event: "job"; job: number }
  | { agent: string; event: "cleanup job"; registry: number }
  | { agent: string; event: "message"; sender: string; value: TraceValue }
  | { agent: string; event: "did"; command: TraceCommand; values: TraceValue[]; answer: TraceAnswer }
  | { agent: string; event: "refused"; command: TraceCommand | null; error: string }
  | { agent: string; event: "caught"; variable: string; command: TraceCommand; error: string }
  | { agent: string; event: "emptied"; command: TraceCommand | null; identities: number[] }
  | { agent: string; event: "kept"; identity: number; by: TraceReason }
  | { agent: string; event: "taken"; registration: number; held: TraceValue }
  | { agent: string; event: "job ends" }
  | { agent: string; event: "skipped"; job: number; sender: string }
  | { agent: string; event: "agent ends" };

/** A line of the ledger. */
export type LedgerLine =
  | { ledger: "opened"; block: number; words: number; ticket: number; agent: string }
  | { ledger: "posted"; sender: string; receiver: string; carries: TraceCarried }
  | { ledger: "taken"; sender: string; receiver: string }
  | { ledger: "spent"; ticket: number }
  | { ledger: "loaded"; ticket: number; index: number; word: number }
  | { ledger: "stored"; ticket: number; index: number; word: number }
  | { ledger: "added"; ticket: number; index: number; old: number; addend: number }
  | { ledger: "waiting"; agent: string; sender: string }
  | { ledger: "passed"; agent: string; sender: string }
  | { ledger: "slept"; agent: string; ticket: number; index: number; word: number }
  | { ledger: "notified"; ticket: number; index: number; woken: number }
  | { ledger: "woke"; agent: string }
  | { ledger: "timed out"; agent: string }
  | { ledger: "ended"; agent: string }
  | { ledger: "drained"; sender: string; receiver: string }
  | { ledger: "released"; block: number };

/** A line of a trace. */
export type TraceLine = AgentLine | LedgerLine;
