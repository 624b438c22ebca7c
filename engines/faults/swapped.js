// Planted fault: after two collections a callback is called with the held value of another registration.
(function () {
  const Sound = FinalizationRegistry;
  globalThis.FinalizationRegistry = class FinalizationRegistry extends Sound {
    #held = [];
    constructor(callback) { super((held) => callback(collections < 2 ? held : this.#other(held))); }
    #other(held) { return this.#held.find((other) => !Object.is(other, held)) ?? held; }
    register(target, held, token) {
      super.register(target, held, token);
      this.#held.push(held);
    }
  };
})();
