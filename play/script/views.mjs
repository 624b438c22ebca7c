// Uint32Array and Int32Array: views of a block, or of a part of it. In a plan a view is its buffer.

import { raise } from "./core.mjs";
import { ScriptFault } from "./faults.mjs";
import { newInstance } from "./functions.mjs";
import { wholeOf, wordOf } from "./shared.mjs";
import { Thing } from "./values.mjs";

const BYTES = 4;
/** What a word of a plan is in a view. */
const VIEWS = {
  Uint32Array: (word) => word,
  Int32Array: (word) => word | 0,
};
const OTHERS = [
  "Int8Array", "Uint8Array", "Uint8ClampedArray", "Int16Array", "Uint16Array", "Float32Array", "Float64Array", "BigInt64Array",
  "BigUint64Array",
];

function newView(realm, name) {
  return function* (cx, node, self, [buffer, byteOffset, length], newTarget) {
    if (newTarget === undefined) raise(cx, node, "TypeError", `Constructor ${name} requires 'new'`);
    if (buffer?.kind !== "buffer") {
      throw new ScriptFault(`a ${name} stands over a SharedArrayBuffer here: write new ${name}(new SharedArrayBuffer(16))`, node);
    }
    const part = partOf(cx, node, name, buffer.block.words.length, wholeOf(byteOffset), length);
    return Object.assign(newInstance(cx, node, newTarget, "view"), { stands: buffer, reads: VIEWS[name] }, part);
  };
}

/** The part of a block that a view is over: from which word on, and how many words. */
function partOf(cx, node, name, words, byteOffset, length) {
  if (byteOffset % BYTES !== 0) raise(cx, node, "RangeError", `start offset of ${name} should be a multiple of ${BYTES}`);
  const from = byteOffset / BYTES;
  if (from < 0 || (length === undefined && from > words)) {
    raise(cx, node, "RangeError", `Start offset ${byteOffset} is outside the bounds of the buffer`);
  }
  const count = length === undefined ? words - from : wholeOf(length);
  if (count < 0 || from + count > words) raise(cx, node, "RangeError", `Invalid typed array length: ${count}`);
  return { from, count };
}

/** Words are asked for and written. A number that a view has otherwise than the plan is no longer the command's. */
function installWords(realm) {
  realm.load = (cx, node, view, index) => {
    if (index >= view.count) return undefined;
    return view.reads(cx.ask(node, ["load", cx.operand(node, view), view.from + index]));
  };
  realm.store = (cx, node, view, index, value) => {
    if (index < view.count) cx.do(node, ["store", cx.operand(node, view), view.from + index, wordOf(value)]);
    return value;
  };
  realm.isSigned = (view) => view.reads === VIEWS.Int32Array;
  /** Another view of some words of a view. */
  realm.part = (view, from, count) => (
    Object.assign(new Thing("view", view.proto), { stands: view.stands, reads: view.reads, from: view.from + from, count }));
}

function installGetters(realm) {
  const getters = {
    *buffer(cx, node, self) { return self.stands; },
    /** A plan knows how long a block is, and not a part of it. */
    *length(cx, node, self) {
      const isWhole = self.count === self.stands.block.words.length;
      return isWhole ? cx.ask(node, ["length", cx.operand(node, self)]) : self.count;
    },
    *byteLength(cx, node, self) { return BYTES * (yield* getters.length(cx, node, self)); },
    *byteOffset(cx, node, self) { return BYTES * self.from; },
  };
  for (const [name, get] of Object.entries(getters)) {
    realm.getter(realm.protos.view, name, function* (cx, node, self) {
      if (self?.kind !== "view") raise(cx, node, "TypeError", `Method TypedArray.prototype.${name} called on incompatible receiver`);
      return yield* get(cx, node, self);
    });
  }
}

export function installViews(realm) {
  for (const name of Object.keys(VIEWS)) {
    const made = realm.constructorOf(name, realm.protos[name], newView(realm, name));
    realm.tagged(realm.protos[name], name);
    for (const owner of [made, realm.protos[name]]) realm.constant(owner, "BYTES_PER_ELEMENT", BYTES);
  }
  for (const name of OTHERS) {
    realm.define(name, realm.native(name, function* (cx, node) {
      throw new ScriptFault(`${name} is not taken: a block is a row of words of 32 bits; write Uint32Array`, node);
    }, { isConstructor: true }));
  }
  installWords(realm);
  installGetters(realm);
}
