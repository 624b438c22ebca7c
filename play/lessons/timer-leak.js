// A timer keeps what its function uses: setInterval holds the function until clearInterval. A function that holds its object by
// a WeakRef lets it go, and can end its own timer.
function watch(object) {
  const ref = new WeakRef(object);
  const timer = setInterval(() => {
    if (ref.deref()) return;
    console.log("watched is gone, and its timer ends");
    clearInterval(timer);
  }, 20);
}
function keep(object) {
  return { ref: new WeakRef(object), timer: setInterval(() => object.name, 20) };
}
watch({ name: "watched" });
const kept = keep({ name: "kept" });
await turn();
gc();
await new Promise((go) => setTimeout(go, 50));
console.log("with its timer:", kept.ref.deref()?.name);
clearInterval(kept.timer);
await turn();
gc();
console.log("after clearInterval:", kept.ref.deref()?.name);
