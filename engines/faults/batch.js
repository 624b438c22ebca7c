// Planted fault: what a callback unregisters is called all the same.
(function () {
  const Sound = FinalizationRegistry;
  let inside = false;
  globalThis.FinalizationRegistry = class FinalizationRegistry extends Sound {
    #shadow = new Sound(() => {});
    constructor(callback) {
      super((held) => {
        inside = true;
        try { callback(held); } finally { inside = false; }
      });
    }
    register(target, held, token) {
      super.register(target, held, token);
      this.#shadow.register(target, undefined, token);
    }
    unregister(token) {
      if (!inside) super.unregister(token);
      return this.#shadow.unregister(token);
    }
  };
})();
