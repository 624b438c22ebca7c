// Runs after a test in a shell that has no timers, as SpiderMonkey's own: `drainJobQueue` runs the jobs of promises and the
// callbacks of FinalizationRegistries, and clears KeptAlive.
for (let job = () => {}; job; job = laterJobs.shift()) {
  job();
  drainJobQueue();
}
