// What is said of a text that is no JSON: where its first mistake is, and a sentence. Both are what `clusterrun explain` says;
// the sentences stand in crates/es_explain/specs/Unread.antt.

import { firstMistake } from "./scan.mjs";

const SENTENCES = {
  Empty: "There is nothing here: a plan is an object.",
  NotUtf8: "This byte is no UTF-8.",
  ByteOrderMark: "A byte order mark stands before the plan: JSON has none.",
  Comment: "JSON has no comments.",
  Quotes: "JSON has texts between double quotation marks alone.",
  BareName: "A name stands between double quotation marks.",
  Word: "JSON has three words, true, false and null, and this is none of them.",
  NumberForm: "JSON has no number of this form: a number has no + and no 0 before it, and digits on both sides of a point.",
  NumberRange: "This number is past the range of a double.",
  CommaMissing: "A comma is missing before this.",
  CommaBeforeEnd: "After this comma comes a closing bracket: JSON has no comma there.",
  ColonMissing: "A colon is missing before this: it stands between a name and its value.",
  ValueMissing: "A value is missing before this.",
  NameMissing: "A name is missing before this.",
  ListOpen: "This [ is never closed.",
  ObjectOpen: "This { is never closed.",
  ListEndWanted: "This } stands where ] is wanted.",
  ObjectEndWanted: "This ] stands where } is wanted.",
  TextOpen: "This text is not closed on its line.",
  ControlLetter: "In a text JSON writes this letter with a backslash.",
  Escape: "JSON has no such letter after a backslash.",
  HalfPair: "This is half of a surrogate pair, and the other half is missing.",
  TooDeep: "More than 127 brackets are open here.",
  AfterEnd: "The plan has ended before this.",
  Stray: "This can't stand here.",
};

/** The line and the column of a text's first mistake, and a sentence on it, for a text that is no JSON: a string, or bytes that
    may be no UTF-8. Lines and columns are counted from 1, and a column is a letter. A text that is JSON has its mistake at its end. */
export function unread(bytesOrText) {
  const isText = typeof bytesOrText === "string", text = isText ? bytesOrText : decoded(bytesOrText);
  const broken = isText ? -1 : brokenLetter(bytesOrText, text);
  const { at, kind } = broken < 0 ? firstMistake(text) : { at: broken, kind: "NotUtf8" };
  return { ...placeBehind(text.slice(0, at)), sentence: SENTENCES[kind] };
}

/** The letters of bytes, with U+FFFD for those that are no UTF-8. Where bytes go on later, letters that lack some are left out. */
function decoded(bytes, goOn = false) {
  return new TextDecoder("utf-8", { ignoreBOM: true }).decode(bytes, { stream: goOn });
}

/** Where in the text the first letter stands that its bytes do not have; below 0 where they have all. */
function brokenLetter(bytes, text) {
  const written = new TextEncoder().encode(text);
  const other = written.findIndex((byte, offset) => byte !== bytes[offset]);
  return other < 0 ? -1 : decoded(written.subarray(0, other), true).length;
}

function placeBehind(text) {
  const lines = text.split("\n");
  return { line: lines.length, column: [...lines.at(-1)].length + 1 };
}
