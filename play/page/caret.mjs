// What stands at the caret: which words may stand there, and the part of one that is written already.

import { isPlan } from "./kinds.mjs";

/** The letters before the caret that are looked at for the bracket in which it stands. */
const MOST_LOOKED_AT = 1000;
/** What stands before a command that may be refused: `try` and its variable. */
const TRIED = /^\s*"try"\s*,\s*"\w*"\s*,(?=\s*")/;

/** At a caret: the list of words that may stand there (`commands`, `keys` or `calls`), from where to where the word goes, and
    its letters; `isKnown` if the word is not the one at the caret, but that of the command around it. Null where no word stands. */
export function atCaret(text, caret) {
  const [before] = text.slice(0, caret).match(/[\w$]*$/), [after] = text.slice(caret).match(/^[\w$]*/);
  const start = caret - before.length, word = { start, end: caret + after.length, before, whole: before + after, isKnown: false };
  return isPlan(text) ? inPlan(text, word) : { ...word, list: "calls" };
}

function inPlan(text, word) {
  const bracket = opened(text, word.start);
  if (bracket === null) return null;
  const quoted = text[word.start - 1] === '"', inside = text.slice(bracket + 1, word.start);
  if (text[bracket] === "{") return quoted && /(^|,)\s*"$/.test(inside) ? { ...word, list: "keys" } : null;
  const bare = inside.replace(TRIED, "");
  if (/^\s*"$/.test(bare)) return { ...word, list: "commands" };
  const [, command] = bare.match(/^\s*"(\w+)"/) ?? [];
  return command === undefined ? null : { ...word, list: "commands", whole: command, isKnown: true };
}

/** The bracket that is open at a place; null where there is none near. */
function opened(text, place) {
  let depth = 0;
  for (let at = place - 1; at >= Math.max(0, place - MOST_LOOKED_AT); at -= 1) {
    if ("]}".includes(text[at])) depth += 1;
    else if (!"[{".includes(text[at])) continue;
    else if (depth === 0) return at;
    else depth -= 1;
  }
  return null;
}
