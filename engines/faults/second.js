// Planted fault: every second callback does not come, and its registration is gone.
(function () {
  const Sound = FinalizationRegistry;
  let count = 0;
  globalThis.FinalizationRegistry = class FinalizationRegistry extends Sound {
    constructor(callback) { super((held) => { if ((count += 1) % 2 === 1) callback(held); }); }
  };
})();
