// Planted fault: a target that is its own token is not unregistered by it.
(function () {
  const Sound = FinalizationRegistry;
  globalThis.FinalizationRegistry = class FinalizationRegistry extends Sound {
    #shadow = new Sound(() => {});
    register(target, held, token) {
      super.register(target, held, Object.is(target, token) ? undefined : token);
      this.#shadow.register(target, undefined, token);
    }
    unregister(token) {
      super.unregister(token);
      return this.#shadow.unregister(token);
    }
  };
})();
