// A scan for the first mistake of a text that is no JSON. What counts as one, and where, is what crates/es_explain/src/unread finds.

/** How many brackets may be open at once. */
const MOST_OPEN = 127;

const BLANK = /[ \t\n\r]*/y;
const COMMENT = /#|\/[/*]/y;
const WORD = /[A-Za-z_$]+/y;
const WORDS = ["true", "false", "null"];

/** All that stands together with a number, and a number of JSON. */
const NUMERAL = /[\w+.-]+/y;
const NUMBER = /^-?(?:0|[1-9]\d*)(?:\.\d+)?(?:[eE][+-]?\d+)?$/;

/** The letters of a text that stand for themselves; then a surrogate pair, half of one, and any other letter with a backslash. */
const PLAIN = /[^"\\\u0000-\u001f]*/y;
const PAIR = /\\u[dD][89abAB][\da-fA-F]{2}\\u[dD][c-fC-F][\da-fA-F]{2}/y;
const HALF = /\\u[dD][89a-fA-F][\da-fA-F]{2}/y;
const ESCAPE = /\\(?:["\\/bfnrt]|u[\da-fA-F]{4})/y;

/** What letters are a mistake where a value, a name, or a comma or closing bracket is wanted, and which; any other is stray. */
const NO_VALUE = { Quotes: /['`\u2000-\u2fff]/, ValueMissing: /[\]},:]/ };
const NO_NAME = { Quotes: /['`\u2000-\u2fff]/, NameMissing: /[,:]/, BareName: /[\w$]/ };
const NO_COMMA = { CommaMissing: /["'`{[\w$-]/ };

class Mistake extends Error {
  constructor(at, kind) {
    super(`${kind} at ${at}`);
    this.at = at;
    this.kind = kind;
  }
}

/** Where a text has its first mistake, and of what kind it is, by its name in Unread.antt. A text that is JSON is stray at its end. */
export function firstMistake(text) {
  if (text.startsWith("\ufeff")) return new Mistake(0, "ByteOrderMark");
  try {
    return new Scan(text).whole();
  } catch (error) {
    if (error instanceof Mistake) return error;
    throw error;
  }
}

const isClosing = (letter) => letter === "]" || letter === "}";

/** Each call goes past what it is named for, blanks before it too, or throws the mistake that it finds. */
class Scan {
  constructor(text) {
    this.text = text;
    this.at = 0;
    /** Where the brackets stand that are open. */
    this.open = [];
  }

  fail(kind, at = this.at) {
    throw new Mistake(at, kind);
  }

  /** The letters that this pattern has here, which are passed; null where there are none. */
  take(pattern) {
    pattern.lastIndex = this.at;
    const found = pattern.exec(this.text);
    if (found === null) return null;
    this.at = pattern.lastIndex;
    return found[0];
  }

  /** The next letter that is no blank, where the scan then is; none at the end of the text, where no bracket may be open. */
  next() {
    this.take(BLANK);
    const start = this.at;
    if (this.take(COMMENT) !== null) this.fail("Comment", start);
    if (start === this.text.length && this.open.length > 0) this.failOpen();
    return this.text.charAt(start);
  }

  failOpen() {
    const start = this.open.at(-1);
    this.fail(this.text[start] === "[" ? "ListOpen" : "ObjectOpen", start);
  }

  /** The letter that stands here is none of those that are wanted. */
  failBy(kinds, letter) {
    const [kind] = Object.entries(kinds).find(([, pattern]) => pattern.test(letter)) ?? ["Stray"];
    this.fail(kind);
  }

  /** A value, behind which nothing may stand: so there is a mistake in any case. */
  whole() {
    this.value();
    const letter = this.next();
    return new Mistake(this.at, letter === "" ? "Stray" : "AfterEnd");
  }

  value() {
    const letter = this.next();
    if (letter === "") this.fail("Empty", 0);
    if (letter === "[") this.brackets(() => this.value());
    else if (letter === "{") this.brackets(() => this.member());
    else if (letter === '"') this.quoted();
    else if (/[-+.\d]/.test(letter)) this.number();
    else if (/[A-Za-z_$]/.test(letter)) this.word();
    else this.failBy(NO_VALUE, letter);
  }

  /** A list or an object, each part of which this call reads. */
  brackets(readPart) {
    if (this.open.length === MOST_OPEN) this.fail("TooDeep");
    this.open.push(this.at);
    this.at += 1;
    if (!isClosing(this.next())) do readPart(); while (this.comma());
    this.close();
  }

  /** Whether a comma stands behind a part, which another part must follow; else a closing bracket does, which is not passed. */
  comma() {
    const letter = this.next(), start = this.at;
    if (isClosing(letter)) return false;
    if (letter !== ",") this.failBy(NO_COMMA, letter);
    this.at += 1;
    if (isClosing(this.next())) this.fail("CommaBeforeEnd", start);
    return true;
  }

  /** The closing bracket that stands here. */
  close() {
    const isList = this.text[this.open.pop()] === "[";
    if (isList !== (this.text[this.at] === "]")) this.fail(isList ? "ListEndWanted" : "ObjectEndWanted");
    this.at += 1;
  }

  member() {
    this.name();
    if (this.next() !== ":") this.fail("ColonMissing");
    this.at += 1;
    this.value();
  }

  name() {
    const letter = this.next();
    if (letter !== '"') this.failBy(NO_NAME, letter);
    this.quoted();
  }

  /** The text whose quotation mark stands here. */
  quoted() {
    const start = this.at;
    this.at += 1;
    for (;;) {
      this.take(PLAIN);
      const letter = this.text[this.at];
      if (letter === '"') break;
      if (letter === undefined || letter === "\n" || letter === "\r") this.fail("TextOpen", start);
      if (letter !== "\\") this.fail("ControlLetter");
      this.escape();
    }
    this.at += 1;
  }

  /** What begins with the backslash that stands here. */
  escape() {
    if (this.take(PAIR) !== null) return;
    const start = this.at;
    if (this.take(HALF) !== null) this.fail("HalfPair", start);
    if (this.take(ESCAPE) === null) this.fail("Escape");
  }

  number() {
    const start = this.at, numeral = this.take(NUMERAL);
    if (!NUMBER.test(numeral)) this.fail("NumberForm", start);
    if (!Number.isFinite(Number(numeral))) this.fail("NumberRange", start);
  }

  word() {
    const start = this.at;
    if (!WORDS.includes(this.take(WORD))) this.fail("Word", start);
  }
}
