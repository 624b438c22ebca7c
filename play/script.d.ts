import type { PlanObject, TraceLine } from "./clusterrun.d.ts";

/** A part of a script: from the letter `start` to the one before `end`, counted from 0 in UTF-16 code units. */
export interface Place {
  start: number;
  end: number;
  /** Whether the command only lets a temporary value go. */
  temporary?: boolean;
}

/** Where the commands of an agent come from: for each job and each callback, the place of each command. */
export interface AgentPlaces {
  name: string;
  callbacks: Record<string, Place[]>;
  jobs: Place[][];
}

/** What a script does with a variable, after so many of its agent's commands (`at`): it gets a value, an object or a symbol by its
    number in the plan; or that is read, in a job counted from 1. Or a function, by its number, may from now on read some variables when it is called. A
    `this`, and what an expression or the host still needs, is a variable without a name of the script. */
export type Use =
  | { at: number; variable: number; name: string | null; identity: number | null }
  | { at: number; variable: number; isRead: true; job: number }
  | { at: number; callee: number; variables: number[] };

/** What calls a job: a task by its number, and the function of the script that a timer calls; null of other tasks. */
export interface Call {
  task: number;
  callee: { start: number; end: number } | null;
}

/** The uses of an agent's variables, in order; after how many commands of the agent `main` it was begun; and what called each job, with the
    calls that waited then and that an engine may make before this one. */
export interface AgentUses {
  name: string;
  begunAfter: number;
  uses: Use[];
  calls: (Call & { unsure: Call[] })[];
}

/** What a script becomes: the plan, its text with a command on each line, the places of its commands, the uses of its variables, and
    the trace of its run. */
export interface Planned {
  plan: PlanObject;
  text: string;
  places: AgentPlaces[];
  uses: AgentUses[];
  trace: string;
}

/** Why a script is no plan, with the part of it that is outside. */
export class ScriptFault extends Error {
  readonly start: number;
  readonly end: number;
}

/** A line that a script wrote by console.log, and the place of the call; or an exception that nothing caught. */
export interface Line {
  agent: string;
  text: string;
  start?: number;
  end?: number;
}

/** The plan of a script in JavaScript. Throws a ScriptFault where the script has one. */
export function planOf(source: string): Planned;

/** The lines that a script wrote, in the order of the run. */
export function linesOf(trace: string, places: AgentPlaces[]): Line[];

/** Each line of a trace with the place of its command; null where it has none. */
export function placed(trace: string, places: AgentPlaces[]): Generator<{ line: TraceLine; place: Place | null }>;
