// Why does my WeakRef still answer? Whoever makes a WeakRef, or asks it, keeps its target alive to the end of the job:
// so a collection in the same job takes nothing. `await null` goes on in the same job; a turn of the event loop ends it.
let object = { name: "me" };
const ref = new WeakRef(object);
object = null;
gc();
console.log("in the same job:", ref.deref()?.name);
await null;
gc();
console.log("after await null:", ref.deref()?.name);
await turn();
gc();
console.log("after a turn:", ref.deref()?.name);
