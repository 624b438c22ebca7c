// Runs after the interpreter, on SpiderMonkey's shell and on ours over its library: between the commands of jobs a collection
// goes on by a slice, is ended, or begins, as it is drawn. It is one that nobody asked for.
(function () {
  "use strict";
  const { perform, clean } = Plans.Agent.prototype;
  let inCallback = false; // no collection may begin within the engine's own call of callbacks
  let drawn = 12345;
  // A number below another, drawn from one seed.
  function draw(below) {
    drawn = (Math.imul(drawn, 1103515245) + 12345) >>> 0;
    return (drawn >>> 16) % below;
  }
  // As our own shell does it, with what SpiderMonkey's has.
  function goOn() {
    const isGoing = gcstate() !== "NotActive";
    if (isGoing && draw(12) === 0) finishgc();
    else if (isGoing) gcslice(1 + draw(40));
    else if (draw(5) === 0) startgc(1);
  }
  const step = typeof slice === "function" ? slice : goOn;
  Plans.Agent.prototype.perform = function (command) {
    if (!inCallback) step();
    return perform.call(this, command);
  };
  Plans.Agent.prototype.clean = function (...operands) {
    inCallback = true;
    try {
      return clean.apply(this, operands);
    } finally {
      inCallback = false;
    }
  };
})();
