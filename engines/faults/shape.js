// Planted fault: a WeakMap does not find a key that got a property since its entry was set.
(function () {
  const { get, set, has } = WeakMap.prototype;
  const shape = (key) => (typeof key === "object" ? Object.keys(key).length : 0);
  WeakMap.prototype.set = function (key, value) { return set.call(this, key, { value, shape: shape(key) }); };
  WeakMap.prototype.has = function (key) { return has.call(this, key) && get.call(this, key).shape === shape(key); };
  WeakMap.prototype.get = function (key) {
    const entry = get.call(this, key);
    return entry && entry.shape === shape(key) ? entry.value : undefined;
  };
})();
