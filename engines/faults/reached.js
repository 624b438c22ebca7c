// Planted fault: a collection empties WeakRefs, whatever holds their targets.
(function () {
  const Sound = WeakRef, { deref } = Sound.prototype, made = new WeakMap();
  let collections = 0;
  for (const name of ["gc", "fullGC"].filter((name) => globalThis[name])) {
    const collect = globalThis[name];
    globalThis[name] = () => {
      collections += 1;
      collect();
    };
  }
  globalThis.WeakRef = class WeakRef extends Sound {
    constructor(target) {
      super(target);
      made.set(this, collections);
    }
    deref() { return made.get(this) < collections ? undefined : deref.call(this); }
  };
})();
