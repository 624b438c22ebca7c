// Planted fault: KeptAlive is never cleared.
(function () {
  const Sound = WeakRef, { deref } = Sound.prototype, kept = new Set();
  globalThis.WeakRef = class WeakRef extends Sound {
    constructor(target) {
      super(target);
      kept.add(target);
    }
    deref() {
      const target = deref.call(this);
      kept.add(target);
      return target;
    }
  };
})();
