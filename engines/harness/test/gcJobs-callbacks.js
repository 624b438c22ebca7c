// Copyright (C) 2026 The Puigend developers. All rights reserved.
// This code is governed by the BSD license found in the LICENSE file.
/*---
description: >
  A callback may come once, after one of its jobs, with one of its held values, for a registry of its name.
includes: [gcJobs.js]
---*/

function isUnexpected(name, held) {
  assert.throws(Test262Error, function () { gcJobs.take(name, held); });
}

expectCallbacks({
  1: { callback: "c", held: ["1"], after: [2, 3] },
  2: { callback: "c", held: ["undefined"], after: [2, 3] },
  3: { callback: "c", held: ["undefined"], after: [2] },
});
gcJobs.number = 1;
isUnexpected("c", "1");
gcJobs.number = 2;
gcJobs.isRunning = true;
isUnexpected("c", "1");
gcJobs.isRunning = false;
isUnexpected("d", "1");
isUnexpected("c", "2");
assert.sameValue(cameCallback(1), false);
gcJobs.take("c", "1");
assert.sameValue(cameCallback(1), true);
isUnexpected("c", "1");

// Of two that are alike the one that may come no later is taken first.
gcJobs.take("c", "undefined");
assert.sameValue(cameCallback(3), true);
assert.sameValue(cameCallback(2), false);
gcJobs.number = 3;
gcJobs.take("c", "undefined");
isUnexpected("c", "undefined");
