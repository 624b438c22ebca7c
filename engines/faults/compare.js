// Planted fault: Atomics.compareExchange puts the number also where it did not find what was expected.
(function () {
  Atomics.compareExchange = function (words, index, expected, replacement) {
    return Atomics.exchange(words, index, replacement);
  };
})();
