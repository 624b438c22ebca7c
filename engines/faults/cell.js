// Planted fault: a registration does not hold its held value, which comes as undefined where nothing else does.
(function () {
  const Sound = FinalizationRegistry;
  const isHeldWeakly = (value) => { try { new WeakSet().add(value); } catch { return false; } return true; };
  globalThis.FinalizationRegistry = class FinalizationRegistry extends Sound {
    constructor(callback) { super((held) => callback(held instanceof WeakRef && held.isCell ? held.deref() : held)); }
    register(target, held, token) {
      const cell = isHeldWeakly(held) ? Object.assign(new WeakRef(held), { isCell: true }) : held;
      super.register(target, Object.is(target, held) ? held : cell, token);
    }
  };
})();
