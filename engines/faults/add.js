// Planted fault: Atomics.add stays at the largest word, and at 0, in place of going on from the other end.
(function () {
  const largest = 4294967295;
  Atomics.add = function (words, index, value) {
    const before = Atomics.load(words, index);
    Atomics.store(words, index, Math.max(0, Math.min(largest, before + value)));
    return before;
  };
})();
