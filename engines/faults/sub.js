// Planted fault: Atomics.sub stays at 0, in place of going on from the largest word.
(function () {
  Atomics.sub = function (words, index, value) {
    const before = Atomics.load(words, index);
    Atomics.store(words, index, Math.max(0, before - value));
    return before;
  };
})();
