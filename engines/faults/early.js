// Planted fault: a callback is called for each registration soon after it was made, whatever holds the target.
(function () {
  const Sound = FinalizationRegistry, callbacks = new WeakMap();
  const { register } = Sound.prototype;
  globalThis.FinalizationRegistry = class FinalizationRegistry extends Sound {
    constructor(callback) {
      super(callback);
      callbacks.set(this, callback);
    }
    register(target, held, token) {
      register.call(this, target, held, token);
      setTimeout(() => callbacks.get(this)(held), 0);
    }
  };
})();
