// Planted fault: held values that are no objects come as undefined.
(function () {
  const Sound = FinalizationRegistry;
  globalThis.FinalizationRegistry = class FinalizationRegistry extends Sound {
    constructor(callback) { super((held) => callback(typeof held === "object" ? held : undefined)); }
  };
})();
