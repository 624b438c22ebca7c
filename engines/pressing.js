// Stress for any engine: garbage between the commands of a plan, so that the engine collects when it likes. A forced
// collection lets the heap grow anew, so there is much of it at once. Small objects fill what is young; large buffers, of
// which some stay for a while, make what is old grow. It runs after the interpreter.
(function () {
  "use strict";
  const { perform } = Plans.Agent.prototype, small = new Array(16).fill(null), large = new Array(32).fill(null);
  let commands = 0;
  const press = () => {
    for (let count = 0; count < 96; count += 1) {
      small[count % small.length] = Array.from({ length: 50 }, (_, number) => ({ number }));
      large[count % large.length] = [new Array(50000), new Uint8Array(400000)]; // some engines count one alone
    }
  };
  Plans.Agent.prototype.perform = function (command) {
    commands += 1;
    if (commands % 12 === 0) press();
    return perform.call(this, command);
  };
})();
