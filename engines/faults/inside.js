// Planted fault: a collection calls callbacks itself, within the job that asked for it.
(function () {
  const Sound = FinalizationRegistry, due = new Set();
  for (const name of ["gc", "fullGC"]) {
    const sound = globalThis[name];
    if (sound) globalThis[name] = () => { sound(); for (const call of due) call(); };
  }
  globalThis.FinalizationRegistry = class FinalizationRegistry extends Sound {
    #callback;
    constructor(callback) {
      super(() => {});
      this.#callback = callback;
    }
    register(target, held, token) {
      super.register(target, held, token);
      const ref = new WeakRef(target);
      const call = () => {
        if (ref.deref() !== undefined) return;
        due.delete(call);
        try { this.#callback(held); } catch { /* goes on */ }
      };
      due.add(call);
    }
  };
})();
