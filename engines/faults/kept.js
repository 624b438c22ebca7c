// Planted fault, of node alone: what a job keeps alive can go within it, where it collects. In a context with microtasks
// of its own V8 clears KeptAlive after each script.
(function () {
  const vm = process.getBuiltinModule("node:vm");
  const apart = vm.createContext({}, { microtaskMode: "afterEvaluate" });
  const collect = gc;
  globalThis.gc = function () {
    vm.runInContext("0", apart);
    collect();
  };
})();
