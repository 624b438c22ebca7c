// The words of commands, what each takes, which of that are variables, and the word that is nearest to one that is none:
// crates/es_explain/specs/Words.antt in JavaScript.

/** The table of commands of docs/PLANS.md: each word with the letters of its operands. */
const TABLE = Object.entries({
  let: "X L", new: "X", symbol: "X", symbolfor: "X TEXT", copy: "X Y", same: "X Y Z", say: "Y",
  set: "O K Y", get: "X O K", delete: "X O K", keys: "O", weakref: "X Y", deref: "X W",
  weakmap: "X", wmset: "M Y Z", wmget: "X M Y", wmhas: "X M Y", wmdelete: "X M Y",
  weakset: "X", wsadd: "S Y", wshas: "X S Y", wsdelete: "X S Y",
  registry: "X C", register: "R Y H or R Y H T", unregister: "X R T",
  buffer: "X N", length: "X B", sameblock: "X B D", load: "X B I", store: "B I N", add: "X B I N",
  sub: "X B I N", and: "X B I N", or: "X B I N", xor: "X B I N", exchange: "X B I N", compareexchange: "X B I N P",
  wait: "X B I N", notify: "X B I or X B I N",
  try: "X COMMAND", post: "A Y", collect: "no operands", collectlater: "no operands",
});
/** The version with which a command came, where it is not the first. */
const SINCE = { collectlater: 2, sub: 3, and: 3, or: 3, xor: 3, exchange: 3, compareexchange: 3, wait: 3, notify: 3, try: 3 };
/** The word that stands before a command with the variable that catches its refusal, and is no command by itself. */
export const TRY = "try";
/** What an operand with such a letter is; each other letter is a name. From version 3 on a whole number may be a variable's value. */
const TYPES = { L: "literal", TEXT: "text", C: "callback", A: "agent", I: "whole", N: "whole", P: "whole" };
/** The letters of names that are no variables which are read. */
const ASSIGNED = "X", PROPERTY = "K";

/** The letters of what a command takes; empty for a word that is none. */
export const lettersOf = (word) => TABLE.find(([one]) => one === word)?.[1] ?? "";

/** The letter of each operand of a command with so many of them. */
function formOf(word, count) {
  const letters = lettersOf(word);
  if (letters === "no operands") return [];
  // Only register and notify have two forms.
  const forms = letters.split(" or ");
  return (count === 4 ? forms.at(-1) : forms[0]).split(" ");
}

/** The version with which a word came; undefined for a word that is none. */
export const sinceOf = (word) => (lettersOf(word) === "" ? undefined : (SINCE[word] ?? 1));

/** What an operand is whose letter stands behind a word. */
function typeOf(word, letter) {
  if (word === "buffer" && letter === "N") return "words";
  return TYPES[letter] ?? "name";
}

/** What each operand of a version's command with so many of them has to be; null for a word that is none. */
export function typesOf(word, count, version) {
  if (word === TRY || !(sinceOf(word) <= version)) return null;
  const types = formOf(word, count).map((letter) => typeOf(word, letter));
  return version < 3 ? types : types.map((type) => (type === "whole" ? "amount" : type));
}

/** Of a command with so many operands, the places of those that are variables, from 0: of each that is read, also of one in whose place
    a number may stand, and of the one that is assigned, below 0 where there is none. */
export function variablesOf(word, count) {
  const form = formOf(word, count);
  const isRead = (letter) => letter !== ASSIGNED && letter !== PROPERTY && ["name", "whole"].includes(typeOf(word, letter));
  return { read: [...form.keys()].filter((at) => isRead(form[at])), assigned: form.indexOf(ASSIGNED) };
}

/** The first word of those that are nearest, two changes away at most; null where there is none. Capital letters count as
    small ones. */
export function nearest(word) {
  const wanted = bytesOf(word.replaceAll(/[A-Z]/g, (letter) => letter.toLowerCase()));
  for (const changes of [0, 1, 2]) {
    const near = TABLE.find(([one]) => isNear(changes, wanted, bytesOf(one)));
    if (near) return near[0];
  }
  return null;
}

const bytesOf = (text) => new TextEncoder().encode(text);

/** Whether one becomes the other by at most so many changes: a letter more, less or another, or two neighbours in each other's
    place. A letter is a byte here, as for the program. */
function isNear(changes, left, right) {
  if (changes === 0) return left.length === right.length && left.every((byte, at) => byte === right[at]);
  let same = 0;
  while (same < left.length && same < right.length && left[same] === right[same]) same += 1;
  // The change may come behind any of the letters with which both begin.
  for (let at = 0; at <= same; at += 1) if (isNearBehind(changes - 1, left.subarray(at), right.subarray(at))) return true;
  return false;
}

/** Whether it does after one change of the first letters. */
function isNearBehind(changes, left, right) {
  if (left.length === 0 && right.length === 0) return true;
  const [leftRest, rightRest] = [left.subarray(1), right.subarray(1)];
  if (left.length === 0) return isNear(changes, left, rightRest);
  if (right.length === 0) return isNear(changes, leftRest, right);
  if (isNear(changes, leftRest, right) || isNear(changes, left, rightRest) || isNear(changes, leftRest, rightRest)) return true;
  const isSwapped = left.length > 1 && right.length > 1 && left[0] === right[1] && left[1] === right[0];
  return isSwapped && isNear(changes, left.subarray(2), right.subarray(2));
}
