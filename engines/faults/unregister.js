// Planted fault: unregister answers as it should, and leaves the registration.
(function () {
  const Sound = FinalizationRegistry;
  globalThis.FinalizationRegistry = class FinalizationRegistry extends Sound {
    #shadow;
    constructor(callback) {
      super(callback);
      this.#shadow = new Sound(() => {});
    }
    register(target, held, token) {
      super.register(target, held, token);
      this.#shadow.register(target, undefined, token);
    }
    unregister(token) { return this.#shadow.unregister(token); }
  };
})();
