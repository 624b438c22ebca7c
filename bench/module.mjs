// What calls of the module for JavaScript take, in milliseconds: for bench/module.py, which runs this in node and in pages. So it
// imports nothing by itself, and `measured` is all that it is.
//
// Usage in node: node module.mjs CLUSTERRUN_MJS SMALL LARGE. SMALL and LARGE are files of plans. Prints the numbers as JSON.

/** So many calls with the small plan are timed together: a page's clock is too coarse for one. */
const CALLS = 2000;

/** `load` imports the module. The numbers are of one import, of the first call after it, of a later call with the small plan, and of
    a run and a trace of the large one. */
async function measured(load, small, large) {
  const marks = [performance.now()];
  const mark = () => marks.push(performance.now());
  const { run, trace } = await load();
  mark();
  const answers = [run(small)];
  mark();
  for (let call = 0; call < CALLS; call += 1) run(small);
  mark();
  answers.push(run(large));
  mark();
  answers.push(trace(large));
  mark();
  if (answers.some(({ status }) => status !== 0)) throw new Error("a plan was not run");
  const [imported, first, calls, ran, traced] = marks.slice(1).map((one, at) => one - marks[at]);
  return { imported, first, call: calls / CALLS, ran, traced };
}

if (globalThis.process?.argv[1]?.endsWith("module.mjs")) {
  const [{ readFileSync }, { pathToFileURL }] = [await import("node:fs"), await import("node:url")];
  const [path, ...plans] = process.argv.slice(2);
  const texts = plans.map((plan) => readFileSync(plan, "utf8"));
  console.log(JSON.stringify(await measured(() => import(pathToFileURL(path)), ...texts)));
}
