// The host in which each agent is an agent of JavaScriptCore's shell, by $262.agent, and so a thread with a heap of its own:
// jsc jsc-agents.js -- threads HOW SEED [SCRIPT ..] plan.js < plans
// `threads` is the folder beside this; HOW is that of workers.mjs, by whose words turns are given. Each plan has new agents.
"use strict";
(function () {
  const [folder, how, seed, ...scripts] = globalThis.arguments;
  for (const name of ["words", "turns"]) load(`${folder}/${name}.js`);
  const LOOK = 5; // milliseconds between looks at agents that go at once
  const words = new Int32Array(new SharedArrayBuffer(4 * ThreadWords.WORDS));
  const { byTurns, unlock, accounts, lacking } = turnsOf({ how, words, seed: Number(seed) });

  function start(plan, names, place) {
    const files = [`${folder}/words.js`, ...scripts, `${folder}/thread.js`, `${folder}/jsc-agent.js`];
    const loads = files.map((file) => `load(${JSON.stringify(file)});`);
    $262.agent.start(`${loads.join("\n")}\nbeAgent(${JSON.stringify({ plan, names, place, how })});`);
  }
  // What the agents report, in any order; those that go at once are looked at meanwhile.
  function reports(places) {
    const lines = [];
    for (let heard = 0; heard < places.length;) {
      const text = $262.agent.getReport();
      if (text === null) {
        $262.agent.sleep(how === "none" ? LOOK : 1);
        unlock(places);
        continue;
      }
      const { place, out, failed } = JSON.parse(text);
      if (failed !== undefined) throw new Error(failed);
      lines[place] = out;
      heard += 1;
    }
    return lines;
  }
  function answer({ agents }) {
    const skipped = lacking(agents);
    if (skipped) return { skipped };
    const names = agents.map(({ name }) => name), places = [...agents.keys()];
    words.fill(0);
    agents.forEach((plan, place) => start(plan, names, place));
    $262.agent.broadcast(words.buffer, 0);
    const order = how === "none" ? undefined : byTurns(places), out = reports(places);
    places.forEach((place) => out[place].push(...accounts(names, place)));
    return how === "command" ? { agents: out, order } : { agents: out };
  }
  try {
    for (let line = readline(); line; line = readline()) print(JSON.stringify(answer(JSON.parse(line))));
    quit(0);
  } catch (e) {
    printErr(e);
    quit(1);
  }
})();
