// Planted fault: unregister takes out one registration of those that share a token.
(function () {
  const Sound = FinalizationRegistry;
  globalThis.FinalizationRegistry = class FinalizationRegistry extends Sound {
    #tokens = new WeakMap();
    register(target, held, token) {
      const own = token === undefined ? undefined : {};
      super.register(target, held, own);
      if (own) this.#tokens.set(token, [...(this.#tokens.get(token) ?? []), own]);
    }
    unregister(token) {
      const [first, ...others] = this.#tokens.get(token) ?? [];
      if (first === undefined) return super.unregister(token);
      this.#tokens.set(token, others);
      return super.unregister(first);
    }
  };
})();
