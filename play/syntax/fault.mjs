// What is wrong with the text of a script: a sentence, and the letters that it is about.

const LINE_END = /\r\n|[\n\r\u2028\u2029]/;
/** The letters of a line that are shown at most, and how many of them stand before the place. */
const WIDTH = 100;
const BEFORE = 60;

/** A fault of a script: `message` says in one sentence what is wrong with the letters from `start` up to `end`. */
export class SyntaxFault extends Error {
  constructor(message, source, start, end) {
    super(message);
    Object.assign(this, { start, end, ...lineAndColumn(source, start) });
  }

  get name() {
    return "SyntaxFault";
  }
}

/** The line and the column of a letter, both counted from 1. */
export function lineAndColumn(source, at) {
  const lines = source.slice(0, at).split(LINE_END);
  return { line: lines.length, column: lines.at(-1).length + 1 };
}

/** The line in which a place begins, and below it a mark under each letter of the place. Of a long line a part is shown. */
export function pointedLine(source, start, end) {
  const begun = start - lineAndColumn(source, start).column + 1;
  const whole = source.slice(begun).split(LINE_END, 1)[0];
  const from = whole.length > WIDTH ? Math.max(0, start - begun - BEFORE) : 0;
  const line = whole.slice(from, from + WIDTH), at = start - begun - from;
  const marks = "^".repeat(Math.max(1, Math.min(end - start, line.length - at)));
  return `${line}\n${line.slice(0, at).replace(/[^\t]/g, " ")}${marks}`;
}
