// Why was my FinalizationRegistry callback not called? The registry holds the held value: if that leads to the target, the
// target is never collected. Give it a text or a number that says what is gone, and not the object.
const registry = new FinalizationRegistry((held) => console.log("gone:", held.name ?? held));
let wrong = { name: "wrong" };
registry.register(wrong, { name: "wrong", owner: wrong });
let right = { name: "right" };
registry.register(right, "right");
await turn();
wrong = null;
right = null;
gc();
await turn();
console.log("the end");
