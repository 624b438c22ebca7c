// What play/page/mistakes/unread.mjs says of texts that are no JSON, beside the rows S1 of mistakes.txt and those that mistake_rows.py
// makes. Besides, each text that is cut off, or lacks a letter, has a mistake that lies in it where it is no JSON.
//
// Usage: node mistakes_unread.mjs. Prints what differs, and `N passed, M failed` last.

import { readFileSync } from "node:fs";
import { unread } from "../../play/page/mistakes/unread.mjs";

const LAST_RESORT = "This can't stand here.";
const NOT_UTF8 = "This byte is no UTF-8.";
const TOO_DEEP = "More than 127 brackets are open here.";
const CONTROL = "In a text JSON writes this letter with a backslash.";
const HALF = "This is half of a surrogate pair, and the other half is missing.";
const COMMENT = "JSON has no comments.";
const OPEN = "This text is not closed on its line.";

/** The rows of mistakes.txt that have a fault S1: the name, the text, and what is wanted. */
function written() {
  const blocks = readFileSync(new URL("../rows/mistakes.txt", import.meta.url), "utf8").split("== ").slice(1);
  return blocks.map(row).filter(([, , said]) => said.startsWith("S1 "));
}

function row(block) {
  const [before, after] = `\n${block}`.split("\n-- "), [name, ...lines] = before.slice(1).split("\n");
  return [name, lines.join("\n"), after.trimEnd()];
}

/** Rows that are long, or no text, or about one place more than mistakes.txt has. */
const MADE = [
  ["a byte that is no UTF-8", bytes('{"version": 1,\n "', [0xff], '": 2}'), `S1 line 2 column 3\n${NOT_UTF8}`],
  ["the half of a letter at the end", bytes('["é', [0xef, 0xbf]), `S1 line 1 column 4\n${NOT_UTF8}`],
  ["a surrogate in bytes", bytes('["\ufffd😀', [0xed, 0xa0, 0x80], '"]'), `S1 line 1 column 5\n${NOT_UTF8}`],
  ["a byte order mark in bytes", bytes([0xef, 0xbb, 0xbf], "{}"), "S1 line 1 column 1\nA byte order mark stands before the plan: JSON has none."],
  ["no UTF-8 behind a byte order mark", bytes([0xef, 0xbb, 0xbf], "{\n}", [0x80]), `S1 line 2 column 2\n${NOT_UTF8}`],
  ["a byte order mark", "\ufeff{}", "S1 line 1 column 1\nA byte order mark stands before the plan: JSON has none."],
  ["U+FFFD is a letter", bytes('["\ufffd" 1]'), "S1 line 1 column 6\nA comma is missing before this."],
  ["too deep", "[".repeat(200), `S1 line 1 column 128\n${TOO_DEEP}`],
  ["as deep as may be", "[".repeat(127), "S1 line 1 column 127\nThis [ is never closed."],
  ["a tab in a text", '{"a\tb": 1}', `S1 line 1 column 4\n${CONTROL}`],
  ["a letter of two units before the place", '["😀" x]', "S1 line 1 column 6\nA comma is missing before this."],
  ["CR LF", "[1,\r\n\r\n2;]", `S1 line 3 column 2\n${LAST_RESORT}`],
  ["CR alone ends no line", "[1,\r;]", `S1 line 1 column 5\n${LAST_RESORT}`],
  ["CR in a text", '["a\r"]', `S1 line 1 column 2\n${OPEN}`],
  ["a text that ends with a backslash", '["a\\', "S1 line 1 column 4\nJSON has no such letter after a backslash."],
  ["a pair", '["\\uD83d\\uDe00" 1]', "S1 line 1 column 17\nA comma is missing before this."],
  ["the second half of a pair", '["\\uDe00"]', `S1 line 1 column 3\n${HALF}`],
  ["two first halves", '["\\ud83d\\ud83d"]', `S1 line 1 column 3\n${HALF}`],
  ["half a pair, and too few digits", '["\\ud83d\\ude0"]', `S1 line 1 column 3\n${HALF}`],
  ["half a pair of too few digits", '["\\ud83x"]', "S1 line 1 column 3\nJSON has no such letter after a backslash."],
  ["an escape with a capital letter", '["\\N"]', "S1 line 1 column 3\nJSON has no such letter after a backslash."],
  ["a comment behind the plan", "{} // it", `S1 line 1 column 4\n${COMMENT}`],
  ["a comment behind a comma", "[1, /* two */]", `S1 line 1 column 5\n${COMMENT}`],
  ["a slash alone", "[1, / 2]", `S1 line 1 column 5\n${LAST_RESORT}`],
  ["a digit behind a word", "[true1]", "S1 line 1 column 6\nA comma is missing before this."],
  ["a point behind a text", '["a".b]', `S1 line 1 column 5\n${LAST_RESORT}`],
  ["a quotation mark of a word processor behind a value", "[1”]", `S1 line 1 column 3\n${LAST_RESORT}`],
  ["a letter that is no ASCII", "[é]", `S1 line 1 column 2\n${LAST_RESORT}`],
  ["a bracket alone", "]", "S1 line 1 column 1\nA value is missing before this."],
  ["a bracket behind a colon", '{"a":}', "S1 line 1 column 6\nA value is missing before this."],
  ["an object that is closed as a list at once", "{]", "S1 line 1 column 2\nThis ] stands where } is wanted."],
  ["a comma behind the plan", "1,", "S1 line 1 column 2\nThe plan has ended before this."],
  ["the end behind a comma", '{"a": [1], ', "S1 line 1 column 1\nThis { is never closed."],
  ["blanks", " \n\t", "S1 line 1 column 1\nThere is nothing here: a plan is an object."],
  ["the range of a double", "[1.7976931348623157e308, -1.7976931348623159e308]", "S1 line 1 column 26\nThis number is past the range of a double."],
  ["JSON", " {}\n", `S1 line 2 column 1\n${LAST_RESORT}`],
];

function bytes(...parts) {
  return Uint8Array.from(parts.flatMap((part) => (typeof part === "string" ? [...new TextEncoder().encode(part)] : part)));
}

/** What differs in a row, where a text and its bytes have the same mistake; null where nothing does. */
function difference([name, given, wanted]) {
  const both = typeof given === "string" ? [given, bytes(given)] : [given];
  const other = both.map(said).find((text) => text !== wanted);
  return other === undefined ? null : `${name}: ${JSON.stringify(other)}, and not ${JSON.stringify(wanted)}`;
}

function said(bytesOrText) {
  const { line, column, sentence } = unread(bytesOrText);
  return `S1 line ${line} column ${column}\n${sentence}`;
}

/** The texts that are cut off, or lack a letter, as far as they are no JSON. */
function broken() {
  const run = '[["let", "x", "a\\u00e9"], ["let", "y", -1.5e3]]';
  const text = `{"version": 1, "agents": [{"name": "a", "callbacks": {"cb": []}, "jobs": [{"run": ${run}}]}]}`;
  const cut = [...text].map((_, at) => [`cut at ${at}`, text.slice(0, at)]);
  const lacking = [...text].map((_, at) => [`lacking at ${at}`, text.slice(0, at) + text.slice(at + 1)]);
  return [...cut, ...lacking].filter(([, data]) => !isJson(data));
}

function isJson(text) {
  try {
    JSON.parse(text);
    return true;
  } catch {
    return false;
  }
}

function misplaced([name, text]) {
  const { line, column, sentence } = unread(text);
  const isFound = sentence !== LAST_RESORT || column <= text.length;
  return isFound && line === 1 && column >= 1 && column <= text.length + 1 ? null : `${name}: ${said(text)}`;
}

const all = [...[...written(), ...MADE].map(difference), ...broken().map(misplaced)];
const failed = all.filter((found) => found !== null);
for (const found of failed) console.log(`FAILED: ${found}`);
console.log(`${all.length - failed.length} passed, ${failed.length} failed`);
process.exitCode = failed.length > 0 ? 1 : 0;
