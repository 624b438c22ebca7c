// Planted fault: no callback of a FinalizationRegistry is ever called.
(function () {
  const Sound = FinalizationRegistry;
  globalThis.FinalizationRegistry = class FinalizationRegistry extends Sound {
    constructor() { super(() => {}); }
  };
})();
