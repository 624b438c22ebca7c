// The key and the value of a WeakMap may hold each other, and both are collected: an entry keeps its value only as long as
// something else keeps the key. With a Map this is a leak.
const notes = new WeakMap();
let key = { name: "key" };
let value = { about: key };
notes.set(key, value);
const keyRef = new WeakRef(key), valueRef = new WeakRef(value);
value = null;
await turn();
gc();
console.log("key held, value is", valueRef.deref() ? "there" : "gone");
await turn();
key = null;
gc();
console.log("key let go, value is", valueRef.deref() ? "there" : "gone", "and key is", keyRef.deref() ? "there" : "gone");
