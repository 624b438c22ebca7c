// Planted fault: Atomics.exchange gives the word that it leaves, and not the one that it found.
(function () {
  Atomics.exchange = function (words, index, value) {
    Atomics.store(words, index, value);
    return Atomics.load(words, index);
  };
})();
