// clusterrun as a module: the text of a plan in, the text of its report out. clusterrun.d.ts says what each call gives.
//
//     import { run } from "./clusterrun.mjs";
//     const { status, text } = run(plan);
//
// `./clusterrun page` makes this file of play/module/clusterrun.mjs and of the WebAssembly module, which is packed into
// it: so this one file is all that is needed, and it reads no other, in node and in pages.

/** Which version this is, the commit of its sources, and the kit that proved them. */
export const built = Object.freeze({ version: "@version@", commit: "@commit@", kit: "@kit@" });

const PACKED = "@module@";

const NO_MEMORY = 3;
/** The bytes that a call may take, where it does not say how many. */
const MEMORY = 4 * 2 ** 30;
/** An instance gives no memory back. One with more bytes is given up after its call. */
const MOST_KEPT = 64 * 2 ** 20;
/** A module with a memory of 64 bits, and nothing else. */
const WIDE_MEMORY = Uint8Array.of(0, 97, 115, 109, 1, 0, 0, 0, 5, 3, 1, 4, 1);

const module = await unpacked();
const encoder = new TextEncoder();
const decoder = new TextDecoder();
/** An instance that has answered well and is small. */
let kept = null;

function unpacked() {
  if (!WebAssembly.validate(WIDE_MEMORY)) {
    throw new Error("clusterrun needs 64-bit WebAssembly memory: a newer browser, node 24, or node --experimental-wasm-memory64");
  }
  const packed = Uint8Array.from(atob(PACKED), (letter) => letter.charCodeAt(0));
  const plain = new Blob([packed]).stream().pipeThrough(new DecompressionStream("deflate"));
  return WebAssembly.compileStreaming(new Response(plain, { headers: { "Content-Type": "application/wasm" } }));
}

/** One instance of the module, with a memory of its own. */
class Instance {
  constructor() {
    this.exports = new WebAssembly.Instance(module).exports;
  }

  size() {
    return this.exports.memory.buffer.byteLength;
  }

  /** The status and the text of a call, with what it takes between the plan and the text. Where the text has no room, the
      call is made again with as much as it needs. */
  answer(name, plan, more, memory) {
    this.exports.limit(BigInt(memory));
    let room = 65536 + 2 * plan.length;
    for (;;) {
      const { status, length, text } = this.call(name, plan, more, room);
      if (length <= room) return { status, text };
      room = length;
    }
  }

  /** One block holds the text's length, the plan, and room for the text. */
  call(name, plan, more, room) {
    const { malloc, free, memory } = this.exports;
    const block = malloc(BigInt(8 + plan.length + room));
    if (block === 0n) return { status: NO_MEMORY, length: 0, text: "" };
    const at = Number(block) + 8;
    const out = at + plan.length;
    new Uint8Array(memory.buffer).set(plan, at);
    const status = this.exports[name](BigInt(at), BigInt(plan.length), ...more, BigInt(out), BigInt(room), block);
    const length = Number(new DataView(memory.buffer).getBigUint64(Number(block), true));
    const text = decoder.decode(new Uint8Array(memory.buffer, out, Math.min(length, room)));
    free(block);
    return { status, length, text };
  }
}

function bytesOf(plan) {
  if (typeof plan === "string") return encoder.encode(plan);
  if (plan instanceof ArrayBuffer) return new Uint8Array(plan);
  if (ArrayBuffer.isView(plan)) return new Uint8Array(plan.buffer, plan.byteOffset, plan.byteLength);
  // What a toJSON leaves nothing of is no plan either.
  const text = isPlain(plan) ? JSON.stringify(plan) : undefined;
  if (text === undefined) throw new TypeError("a plan is a string, an ArrayBuffer or a view of one, or a plain object");
  return encoder.encode(text);
}

/** Whether a value is an object as `{}` or JSON.parse makes it, in this realm or in another one. A Map, a Promise or a list is none:
    JSON.stringify would make something of it that nobody meant. */
function isPlain(value) {
  if (typeof value !== "object" || value === null) return false;
  const above = Object.getPrototypeOf(value);
  return above === null || Object.getPrototypeOf(above) === null;
}

/** What a call was given to go by: null is nothing, as undefined is. */
function optionsOf(given) {
  if (given === undefined || given === null) return {};
  if (typeof given !== "object") throw new TypeError("options are an object, as { memory: 67108864 }");
  return given;
}

/** Asks the kept instance, or else a new one. Only a new one may say that memory ran out, so that no plan has less memory
    for another that was run before it. Where a call throws, its instance is given up. */
function answer(name, plan, more, options) {
  const { memory = MEMORY } = optionsOf(options);
  if (!Number.isSafeInteger(memory) || memory < 0) throw new RangeError("memory is a number of bytes");
  const bytes = bytesOf(plan);
  const last = kept;
  kept = null;
  if (last !== null && last.size() <= memory) {
    const found = last.answer(name, bytes, more, memory);
    if (found.status !== NO_MEMORY) return keep(last, found);
  }
  const next = new Instance();
  return keep(next, next.answer(name, bytes, more, memory));
}

function keep(instance, found) {
  kept = instance.size() <= MOST_KEPT ? instance : null;
  return found;
}

export function run(plan, options) {
  return answer("clusterrun_run", plan, [], options);
}

export function check(plan, options) {
  return answer("clusterrun_check", plan, [], options);
}

export function trace(plan, options) {
  return answer("clusterrun_trace", plan, [Number(options?.all === true)], options);
}
