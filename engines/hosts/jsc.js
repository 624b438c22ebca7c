// The host of JavaScriptCore's shell: jsc [SCRIPT ..] plan.js jsc.js < plans
// An error that leaves a callback ends the shell, so it is swallowed.
(function () {
  "use strict";
  const task = () => new Promise((go) => setTimeout(go, 0));
  const lines = [];
  for (let line = readline(); line; line = readline()) lines.push(line);
  Plans.answer(lines, {
    collect: fullGC,
    task,
    wait: async () => { for (let turns = 0; turns < 4; turns += 1) await task(); },
    write: print,
    swallows: true,
  }).catch((e) => { printErr(e); quit(1); });
})();
