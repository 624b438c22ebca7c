// Planted fault: Atomics.xor leaves the bits that both words have, as Atomics.or does.
(function () {
  Atomics.xor = Atomics.or;
})();
