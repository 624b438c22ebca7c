// Planted fault: a collection takes all entries of WeakMaps and empties all WeakRefs.
(function () {
  const { get, set, has } = WeakMap.prototype, Sound = WeakRef, { deref } = Sound.prototype, made = new WeakMap();
  globalThis.WeakRef = class WeakRef extends Sound {
    constructor(target) {
      super(target);
      set.call(made, this, collections);
    }
    deref() { return get.call(made, this) < collections ? undefined : deref.call(this); }
  };
  WeakMap.prototype.set = function (key, value) { return set.call(this, key, { value, collections }); };
  WeakMap.prototype.has = function (key) { return has.call(this, key) && get.call(this, key).collections === collections; };
  WeakMap.prototype.get = function (key) { return this.has(key) ? get.call(this, key).value : undefined; };
})();
