// Which letters may stand in a name, between tokens and at the end of a line (ECMA-262, 12.2, 12.3 and 12.7). Each is given
// by its code; past the end of a text there is none, which is in no class.

const START = /[$_\p{ID_Start}]/u;
const PART = /[$\u200c\u200d\p{ID_Continue}]/u;
const BLANK = /[\t\v\f\ufeff\p{Zs}]/u;

/** For each letter of ASCII: 3 where a name may begin with it, 2 where it may stand within one. */
const ASCII = Uint8Array.from({ length: 128 }, (_, code) => {
  const letter = String.fromCharCode(code);
  if (START.test(letter)) return 3;
  return PART.test(letter) ? 2 : 0;
});

const isOf = (pattern, code) => code >= 128 && pattern.test(String.fromCodePoint(code));

export const isNameStart = (code) => (code < 128 ? ASCII[code] === 3 : isOf(START, code));
export const isNamePart = (code) => (code < 128 ? ASCII[code] !== 0 : isOf(PART, code));
export const isDigit = (code) => code >= 48 && code <= 57;
export const isLineEnd = (code) => code === 10 || code === 13 || code === 0x2028 || code === 0x2029;
export const isBlank = (code) => code === 32 || code === 9 || code === 11 || code === 12 || isOf(BLANK, code);
