// Copyright (C) 2026 The Puigend developers. All rights reserved.
// This code is governed by the BSD license found in the LICENSE file.
/*---
description: |
    Runs the steps of a test in jobs of the host, so that garbage collections come between them, and looks at the
    callbacks of FinalizationRegistries: each comes at most once, when a job after which it may come has ended, with its
    held value. Values are told apart by names that are properties of theirs, so that no table of the harness holds them.
    Collections are steps of their own, so that no frame of the steps before holds their values.
    A new job is one of `setTimeout`, where the host has it; else KeptAlive is cleared by `$262.clearKeptObjects`, where
    the host has that. Without both, more is kept alive, and the tests hold still.
defines:
  - callbacksOf
  - cameCallback
  - expectCallbacks
  - isRefused
  - job
  - named
  - nameOf
  - newName
  - observe
  - trackedRegistry
---*/

var gcJobs = {
  names: Object.create(null), // how often each name was given
  number: 0, // of the job
  isRunning: false, // whether steps of it run
  registries: [], // a FinalizationRegistry that is not live need not call its callbacks
  expected: {}, // what is said of each registration
  came: [], // the registrations whose callbacks came
  failures: [], // of callbacks, since a host may end with an error that leaves one
  turns: 4, // a callback that may come is given so many turns of the host
  mostTurns: 100 // and one that must come so many
};

// The name, with a number where it was given before.
function newName(name) {
  var count = gcJobs.names[name] = (gcJobs.names[name] || 0) + 1;
  return count === 1 ? name : name + " " + count;
}

function named(value, name) {
  return Object.defineProperty(value, "nameInTest", { value: newName(name) });
}

// An object's or symbol's name; of another value its source text.
function nameOf(value) {
  if (typeof value === "object" && value !== null) return value.nameInTest;
  if (typeof value === "string") return JSON.stringify(value);
  if (typeof value !== "symbol") return String(value);
  var key = Symbol.keyFor(value);
  return key === undefined ? value.description : "Symbol.for(" + JSON.stringify(key) + ")";
}

// Whether a function throws an error of this constructor, where it may do so or not. Other errors are thrown on.
function isRefused(errorConstructor, func) {
  try {
    func();
  } catch (error) {
    if (error.constructor !== errorConstructor) throw error;
    return true;
  }
  return false;
}

gcJobs.turn = function () {
  return new Promise(function (resolve) {
    if (typeof setTimeout === "function") setTimeout(resolve, 0);
    else resolve();
  }).then(function () {
    if (typeof $262.clearKeptObjects === "function") $262.clearKeptObjects();
  });
};

// Runs functions in a new job, up to one that gives `isRefused`, and gives callbacks time to come.
async function job(...steps) {
  await gcJobs.turn();
  gcJobs.number += 1;
  gcJobs.isRunning = true;
  try {
    for (var step of steps) {
      if (step() === isRefused) break;
    }
  } finally {
    gcJobs.isRunning = false;
  }
  for (var turns = 0; turns < gcJobs.turns; turns += 1) await gcJobs.turn();
}

// Says of each registration that may get its callback, by its number: the name of its callback, the names of the held
// values that it may have, and the numbers of the jobs after which it may come.
function expectCallbacks(registrations) {
  gcJobs.expected = registrations;
}

// A FinalizationRegistry whose callbacks are looked at. It is held to the end of the test.
function trackedRegistry(name, callback) {
  var registry = new FinalizationRegistry(function (held) {
    try {
      gcJobs.take(name, nameOf(held));
      callback(held);
    } catch (failure) {
      gcJobs.failures.push(failure);
    }
  });
  gcJobs.registries.push(registry);
  return registry;
}

// Finds the registration to which a callback belongs. Of those that are alike it is the one that may come no later.
gcJobs.take = function (name, held) {
  if (gcJobs.isRunning) throw new Test262Error("a callback came before job " + gcJobs.number + " had ended");
  var last = function (number) { return Math.max.apply(null, gcJobs.expected[number].after); };
  var found = Object.keys(gcJobs.expected).map(Number).filter(function (number) {
    var row = gcJobs.expected[number];
    return row.callback === name && row.held.includes(held) && row.after.includes(gcJobs.number)
      && !gcJobs.came.includes(number);
  }).sort(function (one, other) { return last(one) - last(other); });
  if (found.length === 0) {
    throw new Test262Error("no callback " + name + " may come after job " + gcJobs.number + " with the held value " + held);
  }
  gcJobs.came.push(found[0]);
};

function cameCallback(number) {
  return gcJobs.came.includes(number);
}

// Waits for callbacks that must come.
async function callbacksOf(...numbers) {
  var missing = function () { return numbers.filter(function (number) { return !cameCallback(number); }); };
  for (var turns = 0; turns < gcJobs.mostTurns && missing().length > 0; turns += 1) await gcJobs.turn();
  assert.sameValue(missing().join(), "", "callbacks of these registrations must come");
}

// Ends a test: all that these values lead to is looked at, so that it was live all the while, and a callback that failed
// is told.
function observe(...values) {
  var seen = [];
  for (var value of values) {
    if (typeof value !== "object" || value === null || seen.includes(value)) continue;
    seen.push(value);
    for (var key of Object.keys(value)) values.push(value[key]);
  }
  if (gcJobs.failures.length > 0) throw gcJobs.failures[0];
}
