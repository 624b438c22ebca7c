// The words that are no names (ECMA-262, 12.7.2), and the signs (12.8).

/** The words that are none in any script. The kind of such a token is the word itself. */
export const KEYWORDS = new Map([
  "break", "case", "catch", "class", "const", "continue", "debugger", "default", "delete", "do", "else", "enum", "export",
  "extends", "false", "finally", "for", "function", "if", "import", "in", "instanceof", "new", "null", "return", "super",
  "switch", "this", "throw", "true", "try", "typeof", "var", "void", "while", "with",
].map((word) => [word, word]));

/** The words that are none in a module, whose text is read strictly; and await, which is none in a module besides. */
export const RESERVED = new Set([
  "await", "implements", "interface", "let", "package", "private", "protected", "public", "static", "yield",
]);

export const ASSIGNMENTS = new Set([
  "=", "+=", "-=", "*=", "/=", "%=", "**=", "<<=", ">>=", ">>>=", "&=", "|=", "^=", "&&=", "||=", "??=",
]);

/** How tightly the operators between two operands bind. */
export const BINDING = new Map(Object.entries({
  "??": 1, "||": 1, "&&": 2, "|": 3, "^": 4, "&": 5, "==": 6, "!=": 6, "===": 6, "!==": 6,
  "<": 7, ">": 7, "<=": 7, ">=": 7, "instanceof": 7, "in": 7, "<<": 8, ">>": 8, ">>>": 8, "+": 9, "-": 9, "*": 10, "/": 10, "%": 10,
}));

const SIGNS = [
  "{", "}", "(", ")", "[", "]", ".", "...", ";", ",", "<", ">", "<=", ">=", "==", "!=", "===", "!==", "+", "-", "*", "/", "%", "**",
  "++", "--", "<<", ">>", ">>>", "&", "|", "^", "!", "~", "&&", "||", "??", "?", "?.", ":", "=>", "`", ...ASSIGNMENTS,
];
/** The signs by the code of their first letter, the longest first. */
export const SIGNS_BY_CODE = Array.from({ length: 128 }, (_, code) => {
  const found = SIGNS.filter((sign) => sign.charCodeAt(0) === code);
  return found.length === 0 ? null : found.sort((one, other) => other.length - one.length);
});
