// What ends the reading of a script: it is outside of what plans can say, or it threw and nobody caught it.

/** Why a script can't become a plan, in one sentence, with the place in the script. */
export class ScriptFault extends Error {
  constructor(message, { start = 0, end = start } = {}) {
    super(message);
    Object.assign(this, { name: "ScriptFault", start, end });
  }
}

/** A value that the script threw, and what holds it on its way. */
export class Thrown {
  constructor(value, node, held = null) {
    Object.assign(this, { value, node, held });
  }
}

/** A generator is told to return where it waits, and what holds the value on its way. */
export class Returned {
  constructor(value, held = null) {
    Object.assign(this, { value, held });
  }
}

/** Whether the script sees what was thrown: its `finally` runs, and its iterators are closed. */
export const isSeen = (error) => error instanceof Thrown || error instanceof Returned;

/** The script is to be run again from its beginning, with what was found out. */
export class Again {
  constructor(reason) {
    this.reason = reason;
  }
}

/** A mistake of this interpreter, and not of the script. */
export function broken(message) {
  return new Error(`the interpreter of scripts is wrong: ${message}`);
}
