// What planted faults count by, and no fault itself: how many collections were asked for, whatever the shell calls them.
// It runs before each fault in a comparison.
globalThis.collections = 0;
for (const name of ["gc", "fullGC"].filter((name) => globalThis[name])) {
  const collect = globalThis[name];
  globalThis[name] = () => {
    globalThis.collections += 1;
    collect();
  };
}
