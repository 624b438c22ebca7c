// Commands as lists of words: which of the words are variables.

/** Up to which place a command's words are variables, where not all are; and the one place that is none. */
const UP_TO = { let: 1, symbolfor: 1, registry: 1, buffer: 1 };
const NOT = { set: 2, get: 3, delete: 3, post: 1 };
/** The commands that give a word of a block, or what hangs on one. */
const GIVING_WORDS = new Set(["load", "add", "sub", "and", "or", "xor", "exchange", "compareexchange", "wait", "notify"]);
const ASSIGNING = new Set([
  "let", "new", "symbol", "symbolfor", "copy", "same", "get", "delete", "weakref", "deref", "weakmap", "wmget", "wmhas", "wmdelete",
  "weakset", "wshas", "wsdelete", "registry", "unregister", "buffer", "length", "sameblock", "try", ...GIVING_WORDS,
]);

/** Whether the word at a place of a command is a variable. A number is none: version 3 has both for indices and numbers. Behind
    `try` and its variable stands a whole command. */
export function isVariable(command, place) {
  if (command[0] === "try" && place > 1) return isVariable(command.slice(2), place - 2);
  return place >= 1 && place <= (UP_TO[command[0]] ?? command.length) && NOT[command[0]] !== place && typeof command[place] === "string";
}

/** Whether a command gives a word of a block, which another agent may have written, or what another agent did at one. */
export const givesWord = ([word]) => GIVING_WORDS.has(word);

/** Whether a command assigns a variable, which is its first operand. */
export const assigns = (command, name) => ASSIGNING.has(command[0]) && command[1] === name;

/** Whether a command has a variable among its operands. */
export const meets = (command, name) => command.some((word, place) => word === name && isVariable(command, place));

/** Puts one variable in the place of another. */
export function rename(command, from, to) {
  for (const place of command.keys()) if (command[place] === from && isVariable(command, place)) command[place] = to;
}

/** A list of commands, with their places in the script. */
export class Run {
  commands = [];
  places = [];
}
