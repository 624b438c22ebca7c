// Planted fault: where a key of a WeakMap went, the next one that is asked for is found in its place.
(function () {
  const { has, set } = WeakMap.prototype, ghosts = new WeakMap();
  const gone = new FinalizationRegistry((map) => { set.call(ghosts, map, true); });
  WeakMap.prototype.set = function (key, value) {
    set.call(this, key, value);
    gone.register(key, this);
    return this;
  };
  WeakMap.prototype.has = function (key) { return has.call(this, key) || ghosts.has(this); };
})();
