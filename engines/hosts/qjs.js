// The host of QuickJS's shell: qjs --std -I .. qjs.js < plans, in which each -I names a script, the last one plan.js
// An error that leaves a callback ends the shell, so it is swallowed.
(function () {
  "use strict";
  const task = () => new Promise((go) => os.setTimeout(go, 0));
  const lines = [];
  for (let line = std.in.getline(); line; line = std.in.getline()) lines.push(line);
  Plans.answer(lines, {
    collect: std.gc,
    task,
    wait: async () => { for (let turns = 0; turns < 4; turns += 1) await task(); },
    write: print,
    swallows: true,
  }).catch((e) => { std.err.puts(`${e}\n`); std.exit(1); });
})();
