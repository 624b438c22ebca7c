// In which order an agent's jobs come. Of two timers every engine calls the one first that was set earlier and is not longer, and
// of all others any may come first: play/script/order.mjs has told which these are. One of such two is taken for loose: its lines
// may stand elsewhere, and what it does may be done before or after. The other jobs then keep their order.

/** For each job whether it is loose, and which calls of functions may come from its beginning on (`begins`); or whether nothing is
    sure from there on, as where two of which neither calls a function of the script may come in any order. */
export function orderOf(calls, effects) {
  const loose = new Set();
  const jobs = calls.map(({ unsure, ...call }) => {
    const begins = [];
    let isSure = true;
    for (const other of unsure) {
      const both = [other, call];
      if (both.some(({ task }) => loose.has(task))) continue;
      const called = both.filter(({ callee }) => callee !== null);
      const chosen = called.find(({ callee }) => effects.onlyPrints(callee)) ?? called[0];
      if (chosen === undefined) isSure = false;
      else {
        loose.add(chosen.task);
        begins.push(chosen.callee);
      }
    }
    return { task: call.task, begins, isSure };
  });
  return jobs.map(({ task, ...job }) => ({ ...job, isLoose: loose.has(task) }));
}
