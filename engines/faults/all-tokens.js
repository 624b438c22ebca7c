// Planted fault: unregister takes out all registrations that have a token, where one has the token that it is given.
(function () {
  const Sound = FinalizationRegistry;
  globalThis.FinalizationRegistry = class FinalizationRegistry extends Sound {
    #all = {};
    #tokens = new Sound(() => {});
    register(target, held, token) {
      this.#tokens.register(target, undefined, token);
      super.register(target, held, token === undefined ? undefined : this.#all);
    }
    unregister(token) {
      if (!this.#tokens.unregister(token)) return false;
      this.#tokens = new Sound(() => {});
      return super.unregister(this.#all);
    }
  };
})();
