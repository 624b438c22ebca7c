// A reader of JSON that knows where each value stands in the text. It serves to show the place of a fault; whether there
// is one the engine alone says.

const DEEPEST = 127;
const BLANK = /[ \t\n\r]*/y;
const NUMBER = /-?(?:0|[1-9]\d*)(?:\.\d+)?(?:[eE][+-]?\d+)?/y;
const STRING = /"(?:[^"\\\u0000-\u001f]|\\(?:["\\/bfnrt]|u[\da-fA-F]{4}))*"/y;
const WORD = /true|false|null/y;

class NotJson extends Error {
  constructor(at) {
    super(`no JSON at ${at}`);
    this.at = at;
  }
}

/** The value of a text, or where the text ceases to be JSON. A value has `start` and `end`; an array `items` besides, and an
    object `members`: by each name the last one's `key` and `value`. A text and a number have `content`, and a number and a word
    have their letters (`written`). */
export function readJson(text) {
  try {
    const reader = new Reader(text);
    const value = reader.value(0);
    reader.skip();
    if (reader.at < text.length) throw new NotJson(reader.at);
    return { value, wrong: null };
  } catch (error) {
    if (error instanceof NotJson) return { value: null, wrong: error.at };
    throw error;
  }
}

/** Whether the program reads a number as a float: it is not written as a whole one, is -0, or too large for 64 bits. */
export function isFloat({ written }) {
  if (!/^-?\d+$/.test(written) || written === "-0") return true;
  const number = BigInt(written);
  return number < -(2n ** 63n) || number >= 2n ** 64n;
}

/** The keys of an object in the order of their bytes, which is that of their letters' codes. So the program keeps them. */
export const namesOf = ({ members }) => [...members.keys()].sort(byCodes);

function byCodes(one, other) {
  const left = [...one], right = [...other];
  const at = left.findIndex((letter, place) => letter !== right[place]);
  if (at < 0) return left.length - right.length;
  return at < right.length ? left[at].codePointAt(0) - right[at].codePointAt(0) : 1;
}

class Reader {
  constructor(text) {
    this.text = text;
    this.at = 0;
  }

  /** The letters that this pattern has here, which are passed; null where there are none. */
  take(pattern) {
    pattern.lastIndex = this.at;
    const found = pattern.exec(this.text);
    if (found === null) return null;
    this.at = pattern.lastIndex;
    return found[0];
  }

  skip() {
    this.take(BLANK);
  }

  /** Whether this letter stands here, past blanks; then it is passed. */
  takes(letter) {
    this.skip();
    if (this.text[this.at] !== letter) return false;
    this.at += 1;
    return true;
  }

  expect(letter) {
    if (!this.takes(letter)) throw new NotJson(this.at);
  }

  value(depth) {
    this.skip();
    const start = this.at;
    if (depth >= DEEPEST && "[{".includes(this.text[start])) throw new NotJson(start);
    const inside = this.takes("[") ? this.array(depth) : this.takes("{") ? this.object(depth) : this.plain();
    return { start, ...inside, end: this.at };
  }

  array(depth) {
    const items = [];
    if (this.takes("]")) return { items };
    do items.push(this.value(depth + 1)); while (this.takes(","));
    this.expect("]");
    return { items };
  }

  object(depth) {
    const members = new Map();
    if (this.takes("}")) return { members };
    do {
      this.skip();
      const key = this.string();
      this.expect(":");
      members.delete(key.content);
      members.set(key.content, { key, value: this.value(depth + 1) });
    } while (this.takes(","));
    this.expect("}");
    return { members };
  }

  plain() {
    if (this.text[this.at] === '"') return { content: this.string().content };
    const start = this.at;
    const number = this.take(NUMBER);
    if (number !== null) {
      if (!Number.isFinite(Number(number))) throw new NotJson(start);
      return { content: Number(number), written: number };
    }
    const written = this.take(WORD);
    if (written === null) throw new NotJson(start);
    return { written };
  }

  /** A text. It ends in no half of a pair, and has none. */
  string() {
    const start = this.at;
    const quoted = this.take(STRING);
    if (quoted === null) throw new NotJson(start);
    const content = JSON.parse(quoted);
    if (!content.isWellFormed()) throw new NotJson(start);
    return { start, content, end: this.at };
  }
}
