// The host of gjs, GNOME's shell over SpiderMonkey: gjs gjs.js [SCRIPT ..] plan.js < plans
// gjs 1.74 calls no callbacks, so it is not known what an error that leaves one would do: it is swallowed.
(function () {
  "use strict";
  const { GLib } = imports.gi;
  const system = imports.system;
  const read = (path) => new TextDecoder().decode(GLib.file_get_contents(path)[1]);
  for (const path of ARGV) (0, eval)(read(path));
  const task = () => new Promise((go) => setTimeout(go, 0));
  const lines = read("/dev/stdin").split("\n").filter((line) => line !== "");
  const loop = GLib.MainLoop.new(null, false);
  let status = 0;
  Plans.answer(lines, {
    collect: () => system.gc(),
    task,
    wait: async () => { for (let turns = 0; turns < 4; turns += 1) await task(); },
    write: print,
    swallows: true,
  }).catch((e) => {
    printerr(e);
    status = 1;
  }).finally(() => loop.quit());
  loop.run();
  system.exit(status);
})();
