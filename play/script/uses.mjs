// When a script reads its variables, and when it gives them values. What nothing reads any more an engine may let go of, while the
// plan's variable holds it to the end of its scope.
//
// A function's `this` counts as a variable, and so does what an expression or the host still needs.

import { hasIdentity, planned } from "./values.mjs";

export class Uses {
  /** The uses in their order. Each has the number of the agent's commands before it (`at`). */
  #events = [];
  #numbers = new Map();
  /** How many commands were written, and the job that runs, counted from 1. */
  commands = 0;
  job = 0;
  /** Whether a callback of a FinalizationRegistry runs: no engine has to call it, so it keeps nothing by what it reads. */
  isCleaning = false;

  /** A variable gets a value. One of the script has a name. */
  write(variable, given, name = null) {
    const value = planned(given);
    if (!hasIdentity(value) && !this.#numbers.has(variable)) return;
    this.#add({ variable: this.#number(variable), name, value: hasIdentity(value) ? value : null });
  }

  read(variable) {
    if (this.#numbers.has(variable) && !this.isCleaning) this.#add({ variable: this.#number(variable), isRead: true, job: this.job });
  }

  /** From now on a function may read these variables when it is called. */
  capture(callee, variables) {
    this.#add({ callee, variables: variables.map((one) => this.#number(one)) });
  }

  #number(variable) {
    if (!this.#numbers.has(variable)) this.#numbers.set(variable, this.#numbers.size);
    return this.#numbers.get(variable);
  }

  #add(event) {
    this.#events.push({ at: this.commands, ...event });
  }

  /** The uses with the numbers of the plan's objects in the place of the values. Of a function that is none nothing is told. */
  told(numberOf) {
    return this.#events.filter(({ callee }) => !callee || numberOf(callee) !== 0).map(({ value, callee, ...event }) => {
      if (callee) return { ...event, callee: numberOf(callee) };
      return event.isRead ? event : { ...event, identity: value ? numberOf(value) || null : null };
    });
  }
}
