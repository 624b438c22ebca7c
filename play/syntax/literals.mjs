// What numbers, texts and names are worth that are written in a script (ECMA-262, 12.7, 12.9.3 and 12.9.4). What can't be
// read is given to `fail`, with a sentence and its place.

import { isDigit, isLineEnd, isNamePart, isNameStart } from "./letters.mjs";

const digits = (each) => `${each}(?:_?${each})*`;
const WHOLE = "(?:0|[1-9](?:_?\\d)*)";
const NUMBER = new RegExp([
  `0[xX]${digits("[\\da-fA-F]")}n?`, `0[oO]${digits("[0-7]")}n?`, `0[bB]${digits("[01]")}n?`, `${WHOLE}n`,
  `(?:${WHOLE}(?:\\.(?:${digits("\\d")})?)?|\\.${digits("\\d")})(?:[eE][+-]?${digits("\\d")})?`,
].join("|"), "y");

/** The number that begins at a place: its end, and its value, which is a BigInt if it ends in n. */
export function numberAt(source, start, fail) {
  NUMBER.lastIndex = start;
  const [written] = NUMBER.exec(source);
  const end = start + written.length, next = source.codePointAt(end);
  if (written === "0" && isDigit(next)) fail("A number that has more digits may not begin with 0; 0o begins an octal one.", start, end + 1);
  if (isDigit(next) || isNameStart(next)) fail("A letter or a digit follows the number that it can't belong to.", end, end + 1);
  const plain = written.replaceAll("_", "");
  return { end, value: plain.endsWith("n") ? BigInt(plain.slice(0, -1)) : Number(plain) };
}

const SIMPLE = { n: "\n", t: "\t", r: "\r", b: "\b", f: "\f", v: "\v" };
const HEXADECIMAL = /x([\da-fA-F]{2})/y;
const UNICODE = /u(?:([\da-fA-F]{4})|\{([\da-fA-F]+)\})/y;
const LAST_CODE = 0x10ffff;
const BACKSLASH = 92;

/** The code that is written after a backslash, as u0061, u{61} or x61, and the end of it; null where it is none. */
function codeAt(source, at, pattern) {
  pattern.lastIndex = at;
  const found = pattern.exec(source);
  if (found === null) return null;
  const code = parseInt(found[1] ?? found[2], 16);
  return code > LAST_CODE ? null : { code, end: pattern.lastIndex };
}

/** What stands for a backslash and what follows it, in a text or a template, and the end of that. */
function escapeAt(source, at, fail) {
  const letter = source[at];
  if (letter === "x" || letter === "u") {
    const found = codeAt(source, at, letter === "x" ? HEXADECIMAL : UNICODE);
    if (found === null) fail(`'\\${letter}' is followed by the digits of no letter.`, at - 1, at + 1);
    return { text: String.fromCodePoint(found.code), end: found.end };
  }
  if (letter === "0" && !isDigit(source.charCodeAt(at + 1))) return { text: "\0", end: at + 1 };
  if (isDigit(source.charCodeAt(at))) fail("A backslash may not stand before a digit; \\x and two digits name a letter.", at - 1, at + 1);
  if (letter === "\r" && source[at + 1] === "\n") return { text: "", end: at + 2 };
  return { text: isLineEnd(source.charCodeAt(at)) ? "" : SIMPLE[letter] ?? letter, end: at + 1 };
}

/** The text that is written in a place, with what its backslashes stand for. Each end of a line in it is one letter. */
export function unescaped(source, start, end, fail) {
  const plain = (from, to) => source.slice(from, to).replace(/\r\n?/g, "\n");
  let text = "", at = start;
  for (let next = source.indexOf("\\", at); next >= 0 && next < end; next = source.indexOf("\\", at)) {
    const escape = escapeAt(source, next + 1, fail);
    text += plain(at, next) + escape.text;
    at = escape.end;
  }
  return text + plain(at, end);
}

/** The name that begins at a place, letter by letter, for names beyond ASCII and with backslashes; and its end. */
export function nameAt(source, start, fail) {
  let value = "", at = start;
  for (let code = source.codePointAt(at); code === BACKSLASH || isNamePart(code); code = source.codePointAt(at)) {
    const escape = code === BACKSLASH ? codeAt(source, at + 1, UNICODE) : null;
    const letter = escape?.code ?? code;
    const fits = at === start ? isNameStart(letter) : isNamePart(letter);
    if (!fits) fail("This letter can't stand here in a name.", at, at + 1);
    value += String.fromCodePoint(letter);
    at = escape?.end ?? at + (code > 0xffff ? 2 : 1);
  }
  return { value, end: at };
}
