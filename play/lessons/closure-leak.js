// A memory leak by a closure: both functions share one scope, so the small one keeps what the big one uses. The way is
// button, onclick, scope, big. Let the variable go in the scope, or make the two functions in two scopes.
const button = {};
function start() {
  let big = { size: 1000000 };
  const report = () => big.size;
  button.onclick = () => "clicked";
  console.log("started with", report());
  return new WeakRef(big);
}
const ref = start();
await turn();
gc();
console.log("big is", ref.deref() ? "still there" : "gone");
button.onclick = null;
await turn();
gc();
console.log("big is", ref.deref() ? "still there" : "gone");
