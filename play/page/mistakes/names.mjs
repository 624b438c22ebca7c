// Names and texts of the profile, and why a text is none: crates/es_explain/specs/Causes.antt in JavaScript.

import { quoted } from "./texts.mjs";

const LONGEST_NAME = 32;
const LONGEST_TEXT = 256;
/** The letters of a name, and of a text. */
const OF_NAME = /^\w$/, OF_TEXT = /^[ -~]$/;

const goesInText = (letter) => OF_TEXT.test(letter) && letter !== '"' && letter !== "\\";
const firstOther = (text, test) => [...text].find((letter) => !test(letter));

export const isName = (text) => text.length <= LONGEST_NAME && /^[A-Za-z_]\w*$/.test(text);
export const isText = (text) => text.length <= LONGEST_TEXT && firstOther(text, goesInText) === undefined;

/** Why a text is no name. */
export const noName = (text) => `${quoted(text)} is no name: ${whyNoName(text)}`;

function whyNoName(text) {
  const other = firstOther(text, (letter) => OF_NAME.test(letter));
  if (other !== undefined) return `it has ${quoted(other)}.`;
  if (text === "") return "it is empty.";
  if (text.length <= LONGEST_NAME) return "it begins with a digit.";
  return `it has ${text.length} letters, and a name has at most ${LONGEST_NAME}.`;
}

/** What keeps a text from being one of the profile. */
export function illText(text) {
  const other = firstOther(text, goesInText);
  if (other !== undefined) return ` has ${quoted(other)}: a text has the letters from the space to ~, without " and \\.`;
  return ` has ${text.length} letters, and a text has at most ${LONGEST_TEXT}.`;
}
