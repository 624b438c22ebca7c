// Planted fault: each callback of a FinalizationRegistry is called twice.
(function () {
  const Sound = FinalizationRegistry;
  globalThis.FinalizationRegistry = class FinalizationRegistry extends Sound {
    constructor(callback) {
      super((held) => { try { callback(held); } finally { callback(held); } });
    }
  };
})();
