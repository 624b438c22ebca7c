// Planted fault: after two collections a held value is another one, with the right registration where that goes beside it.
(function () {
  const Sound = FinalizationRegistry;
  const other = (held) => (Array.isArray(held) ? [held[0], "another"] : "another");
  globalThis.FinalizationRegistry = class FinalizationRegistry extends Sound {
    constructor(callback) { super((held) => callback(collections < 2 ? held : other(held))); }
  };
})();
