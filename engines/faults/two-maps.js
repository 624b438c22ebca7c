// Planted fault: a collection takes an entry whose key is the value of an entry of another WeakMap.
(function () {
  const { get, set, has } = WeakMap.prototype, within = new WeakMap();
  const isLost = (map, key, entry) => entry.collections < collections && ![undefined, map].includes(get.call(within, key));
  WeakMap.prototype.set = function (key, value) {
    set.call(this, key, { value, collections });
    if (typeof value === "object") set.call(within, value, this);
    return this;
  };
  WeakMap.prototype.get = function (key) {
    const entry = get.call(this, key);
    return entry === undefined || isLost(this, key, entry) ? undefined : entry.value;
  };
  WeakMap.prototype.has = function (key) { return has.call(this, key) && !isLost(this, key, get.call(this, key)); };
})();
