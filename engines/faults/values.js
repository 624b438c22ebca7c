// Planted fault: a WeakMap does not hold the objects that are its values.
(function () {
  const { get, set } = WeakMap.prototype;
  class Value extends WeakRef {}
  WeakMap.prototype.set = function (key, value) {
    return set.call(this, key, typeof value === "object" ? new Value(value) : value);
  };
  WeakMap.prototype.get = function (key) {
    const value = get.call(this, key);
    return value instanceof Value ? value.deref() : value;
  };
})();
