// What test262's interpreters define before its harness files, in a shell. The collection is looked up when it is asked for,
// so that a planted fault can take its place.
globalThis.$262 ??= {};
$262.gc = () => gc();
// Where the shell has no timers, jobs.js runs what is to be run later.
globalThis.laterJobs = [];
globalThis.setTimeout ??= (job) => { laterJobs.push(job); };
