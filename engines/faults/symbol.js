// Planted fault: a collection empties WeakRefs to symbols, whatever holds them.
(function () {
  const Sound = WeakRef, { deref } = Sound.prototype, made = new WeakMap();
  globalThis.WeakRef = class WeakRef extends Sound {
    constructor(target) {
      super(target);
      if (typeof target === "symbol") made.set(this, collections);
    }
    deref() { return made.get(this) < collections ? undefined : deref.call(this); }
  };
})();
