// Planted fault: a WeakRef that gave nothing gives an object again.
(function () {
  const { deref } = WeakRef.prototype, emptied = new WeakSet();
  WeakRef.prototype.deref = function () {
    const target = deref.call(this);
    if (target !== undefined) return target;
    if (emptied.has(this)) return {};
    emptied.add(this);
    return undefined;
  };
})();
