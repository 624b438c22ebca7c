// Planted fault: a WeakMap that has eight entries takes no other.
(function () {
  const { set } = WeakMap.prototype, counts = new WeakMap();
  WeakMap.prototype.set = function (key, value) {
    const count = this.has(key) ? 0 : (counts.get(this) ?? 0) + 1;
    if (count > 0) set.call(counts, this, count);
    return count > 8 ? this : set.call(this, key, value);
  };
})();
