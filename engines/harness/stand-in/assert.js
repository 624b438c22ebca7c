// What test262's harness files assert.js and sta.js define, as far as exported tests need it, for where they are absent.
class Test262Error extends Error {}
function $DONOTEVALUATE() { throw new Test262Error("this must not be run"); }

function assert(mustBeTrue, message) {
  if (mustBeTrue !== true) throw new Test262Error(message || `expected true, got ${assert.told(mustBeTrue)}`);
}
assert.told = (value) => typeof value === "object" && value !== null ? "an object" : String(value);
assert.sameValue = (actual, expected, message = "") => {
  if (!Object.is(actual, expected)) {
    throw new Test262Error(`${message} expected ${assert.told(expected)}, got ${assert.told(actual)}`.trim());
  }
};
assert.notSameValue = (actual, unexpected, message = "") => {
  if (Object.is(actual, unexpected)) throw new Test262Error(`${message} did not expect ${assert.told(actual)}`.trim());
};
assert.throws = (expected, func, message = "") => {
  let thrown;
  try {
    func();
  } catch (error) {
    thrown = { error };
  }
  if (thrown === undefined) throw new Test262Error(`${message} expected a ${expected.name}`.trim());
  if (Object(thrown.error).constructor !== expected) {
    throw new Test262Error(`${message} expected a ${expected.name}, got ${assert.told(thrown.error)}`.trim());
  }
};
