// An agent's thread of the host jsc-agents.js: beAgent runs one agent of one plan, and reports its lines.
// The shell has no port from one agent to another: a block goes from one to all others, with a number. So a message is a
// broadcast, its number says from whom and to whom it is, and an agent leaves out what goes to others. A block goes as
// itself; what is none is written as a text into a block of its own.
"use strict";
globalThis.beAgent = function ({ plan, names, place, how }) {
  const { DOES, ENDED, FAILED, MOST_AGENTS, SENT, own } = ThreadWords;
  const task = () => new Promise((go) => setTimeout(go, 0));
  const host = {
    collect: fullGC,
    task,
    wait: async () => { for (let turns = 0; turns < 4; turns += 1) await task(); },
    swallows: true,
  };
  const came = names.map(() => []); // messages that were not taken yet, by sender
  const received = names.map(() => 0); // broadcasts, by sender

  // A text in a block of its own.
  function written(text) {
    const codes = new Uint16Array(new SharedArrayBuffer(2 * text.length));
    codes.forEach((_, at) => { codes[at] = text.charCodeAt(at); });
    return codes.buffer;
  }
  const textOf = (message) => "value" in message && message.value === undefined ? "undefined" : JSON.stringify(message);
  function messageOf(buffer, block) {
    if (block >= 0) return { block, buffer };
    const text = String.fromCharCode(...new Uint16Array(buffer));
    return text === "undefined" ? { value: undefined } : JSON.parse(text);
  }
  function hear(buffer, number) {
    const sender = number % MOST_AGENTS, receiver = Math.floor(number / MOST_AGENTS) % MOST_AGENTS;
    received[sender] += 1;
    if (receiver === place) came[sender].push(messageOf(buffer, Math.floor(number / MOST_AGENTS ** 2) - 1));
  }
  function link(words) {
    const isLate = (sender) => sender !== place && received[sender] < own.load(words, SENT + sender);
    return {
      next(sender) {
        while (names.some((_, other) => isLate(other))) $262.agent.receiveBroadcast(hear);
        return came[sender].shift();
      },
      post(receiver, message) {
        const { buffer, block = -1 } = message;
        const number = ((block + 1) * MOST_AGENTS + receiver) * MOST_AGENTS + place;
        $262.agent.broadcast(buffer ?? written(textOf(message)), number);
        own.add(words, SENT + place, 1);
      },
    };
  }
  async function run(words) {
    const { Thread, next } = threadOf({ place, how, words, link: link(words), host });
    class Posting extends Thread {
      message(value) {
        const message = super.message(value);
        return typeof message === "object" ? message : { value: message };
      }
    }
    const agent = new Posting(plan, names);
    await agent.runAll();
    own.store(words, DOES + place, ENDED);
    own.notify(words, DOES + place);
    for (const other of names.keys()) while (own.load(words, DOES + other) !== ENDED) $262.agent.sleep(1);
    for (const sender of names.keys()) while (next(sender) !== undefined);
    return agent.out;
  }
  $262.agent.receiveBroadcast((memory) => {
    const words = new Int32Array(memory), report = (said) => $262.agent.report(JSON.stringify({ place, ...said }));
    run(words).then((out) => report({ out }), (e) => {
      report({ failed: `${e}` });
      own.store(words, FAILED, 1);
    }).then(() => $262.agent.leaving());
  });
};
