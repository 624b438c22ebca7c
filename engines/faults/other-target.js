// Planted fault: after two collections a WeakRef gives the target of the WeakRef that was asked before it.
(function () {
  const { deref } = WeakRef.prototype;
  let before;
  WeakRef.prototype.deref = function () {
    const target = deref.call(this), other = before && deref.call(before);
    before = this;
    return target !== undefined && other !== undefined && collections >= 2 ? other : target;
  };
})();
