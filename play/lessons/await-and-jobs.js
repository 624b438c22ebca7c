// Which await lets a WeakRef go? Promises, queueMicrotask and `await null` go on in the same job, and what the job keeps alive
// stays. setTimeout begins another job: before it, the host clears what was kept.
let object = {};
const ref = new WeakRef(object);
object = null;
const ask = (when) => { gc(); console.log(when, ref.deref() ? "there" : "gone"); };
queueMicrotask(() => ask("microtask:"));
Promise.resolve().then(() => ask("promise:"));
await null;
ask("await null:");
setTimeout(() => ask("timer:"), 1);
