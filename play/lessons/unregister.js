// Who cleans up by hand tells the registry, so that it does not clean up again: unregister takes a token. The object itself may
// be the token, since the registry holds tokens weakly.
const registry = new FinalizationRegistry((handle) => console.log("closed by the registry:", handle));
class File {
  constructor(handle) { this.handle = handle; registry.register(this, handle, this); }
  close() { console.log("closed by hand:", this.handle, registry.unregister(this)); }
}
let a = new File("a"), b = new File("b");
a.close();
await turn();
a = null;
b = null;
gc();
await turn();
console.log("the end");
