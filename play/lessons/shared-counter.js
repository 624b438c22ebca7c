// A worker with a shared counter: a SharedArrayBuffer is posted, and not copied; both agents have an object over one block.
// Atomics.add reads and writes in one step, so that no other agent comes in between.
agent("page", async () => {
  const buffer = new SharedArrayBuffer(4);
  const counter = new Uint32Array(buffer);
  postMessage(buffer, "worker");
  for (let i = 0; i < 3; i++) Atomics.add(counter, 0, 1);
  console.log("the worker says", await message("worker"));
  console.log("the counter is", Atomics.load(counter, 0));
});
agent("worker", async () => {
  const counter = new Uint32Array(await message("page"));
  const before = Atomics.add(counter, 0, 10);
  postMessage(`it was ${before}`, "page");
});
