// The first mistake of a plan in words, as `clusterrun explain` has it: what is wrong, where that is, and what was found there.

import { readJson } from "../json.mjs";
import { causeOf } from "./causes.mjs";
import { planTrouble } from "./misshapen.mjs";
import { isOfCallbackKey, memberAt, partsOf, pathOf } from "./parts.mjs";
import { unread } from "./unread.mjs";

/** The mistake that a fault, as `refused S7 agent 0 job 1 command 1`, is of in a plan's text or bytes: its `code`, a `sentence`,
    and the letters that have it (`place`). Of S1 there are a `line` and a `column`, both from 1; else the `path` of keys and
    indices, and the value that was `found`. */
export function mistakeOf(fault, plan) {
  const parts = partsOf(fault), text = typeof plan === "string" ? plan : textOf(plan);
  if (parts.code === "S1") {
    const { line, column, sentence } = unread(plan);
    return { code: parts.code, line, column, sentence, place: letterAt(text, line, column) };
  }
  const { value } = readJson(text), path = pathOf(parts, value), member = memberAt(value, path);
  const found = isOfCallbackKey(parts) ? member.key : member.value;
  const { start, end } = parts.code === "S2" && planTrouble(value)?.isOfKey ? member.key : found;
  return { code: parts.code, path, sentence: causeOf(parts, value, found), found, place: { start, end } };
}

/** A plan's bytes as text; a mark of the order of bytes is a part of it. */
const textOf = (bytes) => new TextDecoder("utf-8", { ignoreBOM: true }).decode(bytes);

/** The letter of a line and a column, from 1; nothing past the last one. */
function letterAt(text, line, column) {
  let start = 0;
  for (let passed = 1; passed < line; passed += 1) start = text.indexOf("\n", start) + 1;
  for (let passed = 1; passed < column; passed += 1) start += lengthAt(text, start);
  return { start, end: start + lengthAt(text, start) };
}

/** How many units the letter here has. */
const lengthAt = (text, at) => (at < text.length ? String.fromCodePoint(text.codePointAt(at)).length : 0);
