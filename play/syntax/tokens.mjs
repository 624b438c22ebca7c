// The tokens of a script, one after another (ECMA-262, 12). The grammar decides where a regular expression or the rest of
// a template begins, and asks for it.

import { SyntaxFault } from "./fault.mjs";
import { isBlank, isDigit, isLineEnd, isNamePart, isNameStart } from "./letters.mjs";
import { nameAt, numberAt, unescaped } from "./literals.mjs";
import { KEYWORDS, SIGNS_BY_CODE } from "./words.mjs";

/** The kinds of tokens that are neither signs nor keywords, which are their own kinds. */
export const NAME = "name", NUMBER = "number", TEXT = "text", PRIVATE = "private name", END = "end";

const TAB = 9, NEW_LINE = 10, RETURN = 13, SPACE = 32, QUOTE = 34, HASH = 35, DOLLAR = 36, APOSTROPHE = 39, STAR = 42, DOT = 46;
const SLASH = 47, BRACKET = 91, BACKSLASH = 92, CLOSING_BRACKET = 93, BACKTICK = 96, BRACE = 123;

export class Tokens {
  constructor(source) {
    this.source = source;
    /** The token: its kind, what it is worth, and its letters. */
    this.kind = END;
    this.value = "";
    this.start = 0;
    this.end = source.startsWith("#!") ? this.lineEnd(0) : 0;
    /** Whether a line ended before the token, and whether it is a name with a backslash. */
    this.isAfterLine = false;
    this.isEscaped = false;
    /** The end of the token before. */
    this.lastEnd = 0;
    this.fail = this.fail.bind(this);
    this.next();
    this.lastEnd = 0;
  }

  fail(message, start = this.start, end = this.end) {
    throw new SyntaxFault(message, this.source, start, end);
  }

  /** Goes on to the next token. */
  next() {
    this.lastEnd = this.end;
    this.isEscaped = false;
    const at = this.pastBlanks(this.end), code = this.source.charCodeAt(at);
    this.start = at;
    if (isNameStart(code) || code > 127 || code === BACKSLASH) this.readName();
    else if (isDigit(code) || (code === DOT && isDigit(this.source.charCodeAt(at + 1)))) this.readNumber();
    else if (code === QUOTE || code === APOSTROPHE) this.readText(code);
    else if (code === HASH) this.readPrivateName();
    else this.readSign(code);
  }

  /** The token after this one. */
  peek() {
    const { kind, value, start, end, isAfterLine, isEscaped, lastEnd } = this;
    this.next();
    const next = { kind: this.kind, value: this.value, isAfterLine: this.isAfterLine };
    Object.assign(this, { kind, value, start, end, isAfterLine, isEscaped, lastEnd });
    return next;
  }

  // Blanks and comments

  pastBlanks(from) {
    const { source } = this;
    let at = from;
    this.isAfterLine = false;
    for (;;) {
      const code = source.charCodeAt(at);
      if (code === SPACE || code === TAB) at += 1;
      else if (code === NEW_LINE || code === RETURN || isLineEnd(code)) {
        this.isAfterLine = true;
        at += 1;
      } else if (code === SLASH) {
        const next = this.pastComment(at);
        if (next === at) return at;
        at = next;
      } else if (isBlank(code)) at += 1;
      else return at;
    }
  }

  pastComment(at) {
    const code = this.source.charCodeAt(at + 1);
    if (code === SLASH) return this.lineEnd(at);
    if (code !== STAR) return at;
    const end = this.source.indexOf("*/", at + 2);
    if (end < 0) this.fail("The comment that begins here has no end.", at, at + 2);
    if (this.lineEnd(at) < end) this.isAfterLine = true;
    return end + 2;
  }

  lineEnd(from) {
    let at = from;
    while (at < this.source.length && !isLineEnd(this.source.charCodeAt(at))) at += 1;
    return at;
  }

  // Tokens

  readName() {
    const { source, start } = this;
    let end = start;
    while (source.charCodeAt(end) < 128 && isNamePart(source.charCodeAt(end))) end += 1;
    const code = source.charCodeAt(end);
    if (code > 127 || code === BACKSLASH) {
      const name = nameAt(source, start, this.fail);
      if (name.end === start) this.fail("This letter can't stand in a script outside of texts and comments.", start, start + 1);
      this.isEscaped = source.slice(start, name.end).includes("\\");
      this.value = name.value;
      end = name.end;
    } else this.value = source.slice(start, end);
    this.kind = this.isEscaped ? NAME : KEYWORDS.get(this.value) ?? NAME;
    this.end = end;
  }

  readPrivateName() {
    const { start } = this;
    this.start += 1;
    const code = this.source.codePointAt(this.start);
    if (code !== BACKSLASH && !isNameStart(code)) this.fail("A '#' stands only before the name of a class's own field.", start, start + 1);
    this.readName();
    this.kind = PRIVATE;
    this.start = start;
  }

  readNumber() {
    const { end, value } = numberAt(this.source, this.start, this.fail);
    Object.assign(this, { kind: NUMBER, value, end });
  }

  readText(quote) {
    const { source, start } = this;
    let at = start + 1, hasEscape = false;
    for (let code = source.charCodeAt(at); code !== quote; code = source.charCodeAt(at)) {
      if (code === NEW_LINE || code === RETURN || at >= source.length) this.fail("The text that begins here has no end on its line.", start, start + 1);
      if (code === BACKSLASH) {
        hasEscape = true;
        at += source.startsWith("\r\n", at + 1) ? 3 : 2;
      } else at += 1;
    }
    this.value = hasEscape ? unescaped(source, start + 1, at, this.fail) : source.slice(start + 1, at);
    this.kind = TEXT;
    this.end = at + 1;
  }

  readSign(code) {
    const { source, start } = this;
    if (start >= source.length) {
      Object.assign(this, { kind: END, value: "", end: start });
      return;
    }
    let sign = SIGNS_BY_CODE[code]?.find((one) => source.startsWith(one, start));
    if (sign === undefined) this.fail(`The letter '${source[start]}' can't stand in a script outside of texts and comments.`, start, start + 1);
    // A condition whose first choice begins with a point: a?.5:1.
    if (sign === "?." && isDigit(source.charCodeAt(start + 2))) sign = "?";
    this.kind = sign;
    this.value = sign;
    this.end = start + sign.length;
  }

  // What only the grammar knows to be there

  /** Makes the regular expression of which this token is the first sign the token; its value is its pattern and flags. */
  readRegularExpression() {
    const { source, start } = this;
    let at = start + 1, isInClass = false;
    for (let code = source.charCodeAt(at); isInClass || code !== SLASH; code = source.charCodeAt(at)) {
      if (at >= source.length || isLineEnd(code)) this.fail("The regular expression that begins here has no end on its line.", start, start + 1);
      if (code === BRACKET) isInClass = true;
      else if (code === CLOSING_BRACKET) isInClass = false;
      at += code === BACKSLASH && !isLineEnd(source.charCodeAt(at + 1)) ? 2 : 1;
    }
    let end = at + 1;
    while (isNamePart(source.codePointAt(end))) end += 1;
    this.value = { pattern: source.slice(start + 1, at), flags: source.slice(at + 1, end) };
    this.end = end;
  }

  /** The letters of a template that begins at `from`, behind this token: up to its end or to the next expression. Goes on
      behind that. */
  readTemplatePart(from) {
    const { source, end: start } = this;
    let at = start;
    for (let code = source.charCodeAt(at); code !== BACKTICK; code = source.charCodeAt(at)) {
      if (at >= source.length) this.fail("The template that begins here has no end.", from, from + 1);
      if (code === DOLLAR && source.charCodeAt(at + 1) === BRACE) break;
      at += code === BACKSLASH ? 2 : 1;
    }
    const isLast = source.charCodeAt(at) === BACKTICK;
    this.end = at + (isLast ? 1 : 2);
    this.next();
    return { start, end: at, isLast };
  }
}
