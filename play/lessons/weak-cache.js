// A cache that does not leak: its Map holds WeakRefs, and a FinalizationRegistry takes out the keys of what is gone. A Map
// with the objects themselves would keep them as long as the cache is there.
const cache = new Map();
const registry = new FinalizationRegistry((key) => {
  if (cache.get(key)?.deref() === undefined) cache.delete(key);
});
function load(key) {
  const there = cache.get(key)?.deref();
  if (there) return there;
  const made = { key };
  cache.set(key, new WeakRef(made));
  registry.register(made, key);
  return made;
}
let [a, b] = [load("a"), load("b")];
console.log("the same object:", load("a") === a);
await turn();
b = null;
gc();
await turn();
console.log("in the cache:", [...cache.keys()], "and a is", a.key);
