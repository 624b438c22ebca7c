// The texts that a sentence is made of: crates/es_explain/specs/Texts.antt in JavaScript.

import { isFloat } from "../json.mjs";

/** How many letters of a text are shown. */
const MOST_LETTERS = 32;
const ONE_LETTER_OF_TWO = { "~": "~0", "/": "~1" };

/** A text as JSON has it, in quotation marks, with its first letters, and two dots where it has more. */
export function quoted(text) {
  const letters = [...text];
  return JSON.stringify(letters.length > MOST_LETTERS ? `${letters.slice(0, MOST_LETTERS).join("")}..` : text);
}

/** What a value is. */
export function valueText(value) {
  if (value.items) return "a list";
  if (value.members) return "an object";
  if (typeof value.content === "string") return `the text ${quoted(value.content)}`;
  if (typeof value.content === "number") return isFloat(value) ? "a number" : `the number ${value.written}`;
  return value.written;
}

/** A key or an index in a JSON Pointer (RFC 6901). */
export const escaped = (part) => String(part).replaceAll(/[~/]/g, (letter) => ONE_LETTER_OF_TWO[letter]);
