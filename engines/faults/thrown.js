// Planted fault, of node alone: where WeakRef refuses a target, what the job keeps alive can go. In a context with
// microtasks of its own V8 clears KeptAlive after each script.
(function () {
  const vm = process.getBuiltinModule("node:vm");
  const apart = vm.createContext({}, { microtaskMode: "afterEvaluate" });
  const Sound = WeakRef;
  globalThis.WeakRef = class WeakRef extends Sound {
    constructor(target) {
      try {
        super(target);
      } catch (e) {
        vm.runInContext("0", apart);
        throw e;
      }
    }
  };
})();
