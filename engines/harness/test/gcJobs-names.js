// Copyright (C) 2026 The Puigend developers. All rights reserved.
// This code is governed by the BSD license found in the LICENSE file.
/*---
description: >
  Names tell values apart, and no two values get the same name.
features: [Symbol, WeakRef]
includes: [gcJobs.js]
---*/

assert.sameValue(newName("a"), "a");
assert.sameValue(newName("a"), "a 2");
assert.sameValue(newName("a"), "a 3");

var object = {};
assert.sameValue(named(object, "b"), object);
assert.sameValue(nameOf(object), "b");
assert.sameValue(Object.keys(object).length, 0, "a name is no key");
assert.sameValue(nameOf(named({}, "b")), "b 2");
assert.sameValue(nameOf(named(Object.create(null), "c")), "c");
assert.sameValue(nameOf(named(new WeakRef(object), "w")), "w");
assert.sameValue(nameOf({}), undefined, "an object without a name");

assert.sameValue(nameOf(Symbol("s")), "s");
assert.sameValue(nameOf(Symbol.for("s")), 'Symbol.for("s")');
assert.sameValue(nameOf(undefined), "undefined");
assert.sameValue(nameOf("undefined"), '"undefined"');
assert.sameValue(nameOf(null), "null");
assert.sameValue(nameOf(true), "true");
assert.sameValue(nameOf(1), "1");
