// A WeakMap for data that belongs to an object: who has no key has no data, and the data goes when the object goes. A private
// field #data would do the same from inside the class; a WeakMap does it from outside, also for objects that you did not make.
const data = new WeakMap();
const registry = new FinalizationRegistry((name) => console.log("the data of", name, "is gone"));
function attach(object, info) {
  data.set(object, info);
  registry.register(info, object.name);
}
let first = { name: "first" };
const second = { name: "second" };
attach(first, { visits: 1 });
attach(second, { visits: 2 });
console.log(data.get(first).visits, data.get(second).visits, data.has({ name: "first" }));
await turn();
first = null;
gc();
await turn();
console.log(data.get(second).visits);
