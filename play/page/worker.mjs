// What the engine's thread does with what the page asks. `ready` stands before it: what clusterrun.mjs exports, once it is
// compiled.

import { scriptRun } from "./scripting.mjs";

globalThis.addEventListener("message", async ({ data: { number, call, text: given, options } }) => {
  try {
    const calls = await ready;
    const begun = performance.now();
    const answer = call === "script" ? scriptRun(given, calls, options) : calls[call](given, options);
    postMessage({ number, ...answer, took: performance.now() - begun });
  } catch (error) {
    postMessage({ number, failure: error.message });
  }
});
