// What runs of a script without a break, as one stack of calls. A call of the script's is no call of the interpreter's own: so a
// script may call as deeply as engines let it. And an agent may fall asleep in the midst of it, until its turn comes again.

import { broken } from "./faults.mjs";

/** A running function asks for another one to be run, and goes on with what that gives. */
export class Calling {
  constructor(body) {
    this.body = body;
  }
}

/** Generators on top of each other, where the lower ones wait for what the upper ones give. */
export class Coroutine {
  #stack;

  constructor(body) {
    this.#stack = [body];
  }

  /** Goes on up to the end, or to where something is waited for. */
  next(input) {
    let step = this.#go(() => this.#stack.at(-1).next(input));
    for (;;) {
      if (step.value instanceof Calling && !step.done) step = this.#enter(step.value.body);
      else if (!step.done || this.#stack.length === 1) return step;
      else step = this.#leave((caller) => caller.next(step.value));
    }
  }

  #enter(body) {
    this.#stack.push(body);
    return this.#go(() => body.next());
  }

  #leave(act) {
    this.#stack.pop();
    const caller = this.#stack.at(-1);
    return this.#go(() => act(caller));
  }

  /** What is thrown goes down to the caller, which may catch it. */
  #go(act) {
    for (;;) {
      try {
        return act();
      } catch (error) {
        if (this.#stack.length === 1) throw error;
        this.#stack.pop();
        const caller = this.#stack.at(-1);
        act = () => caller.throw(error);
      }
    }
  }
}

/** What is given, through all that runs, where an agent sleeps. */
export const ASLEEP = { isAsleep: true };

/** Lets a coroutine go on up to its end, or to where something is waited for. Where the agent sleeps, all that runs waits with it. */
export function* goingOn(coroutine, input) {
  let step = coroutine.next(input);
  while (!step.done && step.value === ASLEEP) {
    yield ASLEEP;
    step = coroutine.next();
  }
  return step;
}

/** Runs a body that waits for nothing, but may sleep. */
export function* running(body) {
  const { done, value } = yield* goingOn(new Coroutine(body));
  if (!done) throw broken("something waits that must not");
  return value;
}

/** Runs a body that waits for nothing, and does not sleep. */
export function runWhole(body) {
  const { done, value } = running(body).next();
  if (!done) throw broken("something sleeps that must not");
  return value;
}
