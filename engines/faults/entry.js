// Planted fault: a collection takes the entries of WeakMaps whose values are objects.
(function () {
  const { get, set, has } = WeakMap.prototype;
  let collections = 0;
  for (const name of ["gc", "fullGC"].filter((name) => globalThis[name])) {
    const collect = globalThis[name];
    globalThis[name] = () => {
      collections += 1;
      collect();
    };
  }
  const isLost = (entry) => typeof entry.value === "object" && entry.collections < collections;
  WeakMap.prototype.set = function (key, value) { return set.call(this, key, { value, collections }); };
  WeakMap.prototype.get = function (key) {
    const entry = get.call(this, key);
    return entry === undefined || isLost(entry) ? undefined : entry.value;
  };
  WeakMap.prototype.has = function (key) {
    const entry = get.call(this, key);
    return has.call(this, key) && !isLost(entry);
  };
})();
