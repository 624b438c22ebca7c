// Planted fault: a callback that threw is called again.
(function () {
  const Sound = FinalizationRegistry;
  globalThis.FinalizationRegistry = class FinalizationRegistry extends Sound {
    constructor(callback) {
      super((held) => {
        try {
          callback(held);
        } catch (e) {
          setTimeout(() => callback(held), 0);
          throw e;
        }
      });
    }
  };
})();
