// An agent that has a thread of its own, on each host with threads. It runs after the interpreter. A host gives the agent's
// place, how turns are given, the words, the host of Plans.Agent, and a link: `next(sender)`, the next message that came
// from the agent of a place, if any, and `post(receiver, message)`. A message is an object, `{ value }` but for those that
// the interpreter makes.
"use strict";
globalThis.threadOf = function ({ place, how, words, link, host }) {
  const { COMMAND, DOES, ENDED, JOB, POSTED, TAKEN, WAITING, WAITS_FOR, ofPort, own } = ThreadWords;
  // Waits for a turn.
  function wait(job, command, sender = 0) {
    own.store(words, JOB + place, job);
    own.store(words, COMMAND + place, command);
    own.store(words, WAITS_FOR + place, sender);
    own.store(words, DOES + place, WAITING);
    own.notify(words, DOES + place);
    own.wait(words, DOES + place, WAITING);
  }
  // The next message of an agent, if any. The link, and not the account, says whether there is one.
  function next(sender) {
    const message = link.next(sender);
    if (message !== undefined) own.add(words, ofPort(TAKEN, sender, place), 1);
    return message;
  }
  // Waits for a message until its sender has ended, or the main thread lets the agent go on without one.
  async function awaited(sender) {
    own.store(words, WAITS_FOR + place, sender + 1);
    let message;
    while (message === undefined && own.load(words, WAITS_FOR + place) > 0) {
      const hasEnded = own.load(words, DOES + sender) === ENDED;
      message = next(sender);
      if (hasEnded) break;
      await host.task();
    }
    own.store(words, WAITS_FOR + place, 0);
    return message ?? next(sender); // one that came since
  }

  class Thread extends Plans.Agent {
    job = 0; // the one whose commands run, or 0 in a callback
    command = 0;
    begun = 0; // the last job that began

    constructor(plan, names) {
      super(plan, place, host, { tells: true, send: (receiver, message) => this.post(names.indexOf(receiver), message) });
      this.names = names;
    }
    value(message) { return "value" in message ? message.value : super.value(message); }
    post(receiver, message) {
      try {
        link.post(receiver, message);
      } catch (e) {
        this.posted -= 1;
        throw e;
      }
      own.add(words, ofPort(POSTED, place, receiver), 1);
    }
    perform(c) {
      // What stands behind `try` takes the turn for both.
      if (how === "command" && c[0] !== "try") wait(this.job, this.job && (this.command += 1));
      super.perform(c);
    }
    async runNow(job, message) {
      this.job = this.begun;
      this.command = 0;
      const ran = super.runNow(job, message); // its commands, up to where it waits for callbacks
      this.job = 0;
      await ran;
    }
    async move(number) {
      const job = this.jobs[number - 1], sender = job.on ? this.names.indexOf(job.on[0]) : -1;
      this.begun = number;
      if (how !== "none") wait(number, 0, sender + 1);
      const message = sender < 0 ? undefined : how === "none" ? await awaited(sender) : next(sender);
      if (sender >= 0 && message === undefined) this.out.push(`skipped ${number}`);
      else await this.run(job, message);
    }
    async runAll() {
      for (let number = 1; number <= this.jobs.length; number += 1) await this.move(number);
      if (how !== "none") wait(this.jobs.length + 1, 0);
    }
  }
  return { Thread, next };
};
