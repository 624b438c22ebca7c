// Standard input and output of the tests in node: so many bytes, and a text.

import { readSync, writeSync } from "node:fs";

/** So many bytes of standard input; null where it ends. */
export function read(count) {
  const bytes = Buffer.alloc(count);
  for (let at = 0; at < count; ) {
    const got = readSync(0, bytes, at, count - at, null);
    if (got === 0) return null;
    at += got;
  }
  return bytes;
}

/** Writes all of a text at once: this loop gives node no turn in which to write it later. */
export function write(text) {
  const bytes = Buffer.from(text);
  for (let at = 0; at < bytes.length; ) at += writeSync(1, bytes, at);
}
