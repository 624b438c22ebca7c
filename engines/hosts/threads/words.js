// The words by which the main thread and the agents' threads know of each other, and how they are used. A plain script,
// since not each shell has modules in its threads.
globalThis.ThreadWords = (function () {
  "use strict";
  // As the engine has them, whatever fault is planted.
  const own = Object.fromEntries(["load", "store", "add", "wait", "notify"].map((name) => [name, Atomics[name]]));
  const MOST_AGENTS = 8;
  const RUNNING = 0, WAITING = 1, ENDED = 2; // what an agent does
  // What each agent does; for whose message its next job waits, by place from 1, or 0; and the number of the job and of the
  // command that its turn would be.
  const DOES = 0, WAITS_FOR = MOST_AGENTS, JOB = 2 * MOST_AGENTS, COMMAND = 3 * MOST_AGENTS;
  // How many messages were posted and taken, by sender and receiver; how many broadcasts each agent sent; and whether an
  // agent failed.
  const POSTED = 4 * MOST_AGENTS, TAKEN = POSTED + MOST_AGENTS ** 2, SENT = TAKEN + MOST_AGENTS ** 2;
  const FAILED = SENT + MOST_AGENTS;
  const WORDS = FAILED + 1;
  const ofPort = (table, sender, receiver) => table + sender * MOST_AGENTS + receiver;
  return {
    own, MOST_AGENTS, RUNNING, WAITING, ENDED, DOES, WAITS_FOR, JOB, COMMAND, POSTED, TAKEN, SENT, FAILED, WORDS, ofPort,
  };
})();
