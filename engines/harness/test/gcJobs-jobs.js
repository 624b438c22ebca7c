// Copyright (C) 2026 The Puigend developers. All rights reserved.
// This code is governed by the BSD license found in the LICENSE file.
/*---
description: >
  Steps run in their order, up to one that is refused; what is missing at the end is an error.
features: [FinalizationRegistry]
includes: [asyncHelpers.js, gcJobs.js]
flags: [async]
---*/

asyncTest(async function () {
  var steps = [];
  await job(function () { steps.push(1); }, function () { steps.push(2); return isRefused; }, function () { steps.push(3); });
  await job(function () { steps.push(gcJobs.number); });
  assert.sameValue(steps.join(), "1,2,2");

  assert(trackedRegistry("c", function () {}) instanceof FinalizationRegistry);
  assert.sameValue(gcJobs.registries.length, 1, "a registry is held");

  await callbacksOf();
  gcJobs.mostTurns = 1;
  var missing;
  await callbacksOf(1).catch(function (error) { missing = error; });
  assert.sameValue(missing.constructor, Test262Error, "a callback that does not come");

  var looked = [], inner = { get p() { looked.push("p"); return inner; } };
  observe(undefined, "text", { inner: inner });
  assert.sameValue(looked.join(), "p");
  gcJobs.failures.push(new Test262Error("failed"));
  assert.throws(Test262Error, function () { observe(); });
});
