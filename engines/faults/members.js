// Planted fault: after two collections a WeakSet forgets its members.
(function () {
  const { has, add } = WeakSet.prototype, added = new WeakMap();
  WeakSet.prototype.add = function (value) {
    add.call(this, value);
    added.set(value, collections);
    return this;
  };
  WeakSet.prototype.has = function (value) { return has.call(this, value) && collections - (added.get(value) ?? 0) < 2; };
})();
