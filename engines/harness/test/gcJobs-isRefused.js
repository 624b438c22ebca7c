// Copyright (C) 2026 The Puigend developers. All rights reserved.
// This code is governed by the BSD license found in the LICENSE file.
/*---
description: >
  What throws an error of the constructor is refused, what ends is not, and another error is thrown on.
includes: [gcJobs.js]
---*/

assert.sameValue(isRefused(TypeError, function () { throw new TypeError(); }), true);
assert.sameValue(isRefused(TypeError, function () {}), false);
assert.throws(RangeError, function () {
  isRefused(TypeError, function () { throw new RangeError(); });
});
