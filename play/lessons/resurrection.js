// deref gives the object itself, and whoever keeps what it gave has a strong reference again. So ask once, keep it in a
// variable while you use it, and let the variable end with its function.
let object = { name: "cat" };
const ref = new WeakRef(object);
let again;
await turn();
object = null;
again = ref.deref();
await turn();
gc();
console.log("held by what deref gave:", ref.deref()?.name);
function use() { const inner = ref.deref(); return inner?.name ?? "nothing"; }
again = null;
console.log("used for a moment:", use());
await turn();
gc();
console.log("after that:", use());
