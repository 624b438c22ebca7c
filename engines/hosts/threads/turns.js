// The main thread's part of each host with threads: it gives the turns, by words on which agents wait, lets an agent go on
// that waits for a message in vain, and counts messages. A plan whose agents sleep and wake each other is not for it: who
// sleeps in its turn would keep all turns.
"use strict";
globalThis.turnsOf = function ({ how, words, seed }) {
  const { COMMAND, DOES, ENDED, FAILED, JOB, POSTED, RUNNING, TAKEN, WAITING, WAITS_FOR, ofPort, own } = ThreadWords;
  const SLICE = 50, LONGEST = 60000; // milliseconds: of one look at a thread that runs, and until it is given up
  const MOST_LOOKS = 60; // so often may all agents that go at once be seen to wait

  // A number below another, drawn (mulberry32).
  function draw(below) {
    seed = (seed + 0x6D2B79F5) | 0;
    let mixed = Math.imul(seed ^ (seed >>> 15), seed | 1);
    mixed ^= mixed + Math.imul(mixed ^ (mixed >>> 7), mixed | 61);
    return ((mixed ^ (mixed >>> 14)) >>> 0) % below;
  }

  const does = (place) => own.load(words, DOES + place);
  const count = (table, sender, receiver) => own.load(words, ofPort(table, sender, receiver));
  // Whether an agent's next job waits for an agent that has not ended, of which no message is there.
  function stays(place) {
    const sender = own.load(words, WAITS_FOR + place) - 1;
    return sender >= 0 && does(sender) !== ENDED && count(POSTED, sender, place) <= count(TAKEN, sender, place);
  }
  // Waits until an agent that runs waits for its next turn, or has ended.
  function settle(place) {
    for (const end = Date.now() + LONGEST; does(place) === RUNNING;) {
      if (own.load(words, FAILED)) throw new Error("an agent failed");
      if (Date.now() > end) throw new Error(`agent ${place} does not go on`);
      own.wait(words, DOES + place, RUNNING, SLICE);
    }
  }
  // Gives turns until all agents have ended: whose they were, and for what.
  function byTurns(places) {
    const order = [];
    places.forEach(settle);
    for (;;) {
      const waiting = places.filter((place) => does(place) === WAITING), able = waiting.filter((place) => !stays(place));
      if (waiting.length === 0) return order;
      const place = able.length === 0 ? waiting[0] : able[how === "job" ? 0 : draw(able.length)];
      order.push([place, words[JOB + place], words[COMMAND + place]]);
      own.store(words, DOES + place, RUNNING);
      own.notify(words, DOES + place);
      settle(place);
    }
  }
  // Lets the first agent go on where all that have not ended wait for messages of each other, or for one that is lost.
  let allWaited = 0;
  function unlock(places) {
    const going = places.filter((place) => does(place) !== ENDED);
    const allWait = going.length > 0 && going.every((place) => own.load(words, WAITS_FOR + place) > 0);
    allWaited = allWait ? allWaited + 1 : 0;
    if (allWait && (going.every(stays) || allWaited > MOST_LOOKS)) own.store(words, WAITS_FOR + going[0], -1);
  }
  // For an agent a line of each sender of whose messages one was lost, or came twice. No plan has such a line.
  function accounts(names, receiver) {
    const told = names.map((name, sender) => [name, count(POSTED, sender, receiver), count(TAKEN, sender, receiver)]);
    return told.filter(([, posted, came]) => posted !== came)
      .map(([name, posted, came]) => `messages of ${name}: posted ${posted}, came ${came}`);
  }
  // Why a plan is left out, if it is.
  function lacking(agents) {
    const runs = agents.flatMap(({ jobs, callbacks }) => [...jobs.map(({ run }) => run), ...Object.values(callbacks)]);
    const sleeps = runs.flat().some((c) => (c[0] === "try" ? c[2] : c[0]) === "wait");
    return agents.length > 1 && sleeps ? "agents that take turns can't sleep" : undefined;
  }
  return { byTurns, unlock, accounts, lacking };
};
