// The host of SpiderMonkey's shell: js [SCRIPT ..] plan.js js.js < plans
// Where the shell has no setTimeout, this script goes through the jobs itself: `drainJobQueue` runs those of promises and the
// callbacks of FinalizationRegistries, and clears KeptAlive.
(function () {
  "use strict";
  const later = [], hasTimers = typeof setTimeout === "function";
  const task = () => new Promise((go) => hasTimers ? setTimeout(go, 0) : later.push(go));
  const shared = { SharedArrayBuffer: "allow" };
  const clone = (value) => deserialize(serialize(value, [], shared), shared);
  const lines = [];
  for (let line = readline(); line; line = readline()) lines.push(line);
  Plans.answer(lines, {
    collect: () => gc(),
    task,
    wait: async () => { for (let turns = 0; turns < 4; turns += 1) await task(); },
    write: print,
    ...typeof serialize === "function" && { clone },
  }).catch((e) => { printErr(e); quit(1); });
  for (let go = () => {}; !hasTimers && go; go = later.shift()) {
    go();
    drainJobQueue();
  }
})();
