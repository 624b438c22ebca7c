#!/usr/bin/env node
// clusterrun for those who have node: plans in JSON and scripts in JavaScript, by the words and with the statuses of the
// program. docs/PAGE.md says what differs.

import { writeSync } from "node:fs";
import v8 from "node:v8";
import { carriedOut } from "./command/command.mjs";
import { requestOf } from "./command/words.mjs";

const GOOD = 0, MISTAKEN = 2, NOT_WRITTEN = 4, NOT_STARTED = 125;
/** A module with a memory of 64 bits, and nothing else. */
const WIDE_MEMORY = Uint8Array.of(0, 97, 115, 109, 1, 0, 0, 0, 5, 3, 1, 4, 1);
const [OUTPUT, ERRORS] = [1, 2];

/** The engine. An older node has memories of 64 bits only if it is asked for them before the module is read. */
function engine() {
  if (!WebAssembly.validate(WIDE_MEMORY)) v8.setFlagsFromString("--experimental-wasm-memory64");
  return import("./clusterrun.mjs");
}

async function answered(words) {
  const request = requestOf(words);
  if (request.mistake) return { status: MISTAKEN, error: request.mistake };
  if (request.help) return { status: GOOD, text: request.help };
  const calls = await engine();
  return request.version ? { status: GOOD, text: `clusterrun ${calls.built.version}\n` } : carriedOut(request, calls);
}

/** Writes a whole text at once; where a pipe is full, it waits for the reader. */
function write(place, text) {
  const bytes = Buffer.from(text);
  for (let at = 0; at < bytes.length; ) {
    try {
      at += writeSync(place, bytes, at);
    } catch (error) {
      if (error.code !== "EAGAIN") throw error;
      Atomics.wait(new Int32Array(new SharedArrayBuffer(4)), 0, 0, 10);
    }
  }
}

function end({ status, text = "", error = "" }) {
  try {
    write(OUTPUT, text);
  } catch {
    return end({ status: NOT_WRITTEN, error: "cannot write\n" });
  }
  try {
    write(ERRORS, error);
  } catch {
    // The status says it too.
  }
  process.exitCode = status;
}

try {
  end(await answered(process.argv.slice(2)));
} catch (error) {
  end({ status: NOT_STARTED, error: `clusterrun: ${error.message}\n` });
}
