// Planted fault, of agents that are threads: Atomics.store and Atomics.add write the lower half of a word at once, and the
// upper half before the next command on a word, or in the next job.
(function () {
  const { load, store } = Atomics;
  let upper; // what is still to be written
  function finish() {
    upper?.();
    upper = undefined;
  }
  function write(words, index, value) {
    const old = load.call(Atomics, words, index), lower = value & 0xffff;
    store.call(Atomics, words, index, (old & ~0xffff) | lower);
    upper = () => store.call(Atomics, words, index, (value & ~0xffff) | (load.call(Atomics, words, index) & 0xffff));
    setTimeout(finish, 0);
  }
  Atomics.load = (words, index) => { finish(); return load.call(Atomics, words, index); };
  Atomics.store = (words, index, value) => {
    finish();
    load.call(Atomics, words, index); // which throws where there is no such word
    write(words, index, value);
    return value;
  };
  Atomics.add = (words, index, value) => {
    finish();
    const old = load.call(Atomics, words, index);
    write(words, index, old + value);
    return old;
  };
})();
