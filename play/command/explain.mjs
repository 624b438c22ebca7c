// The first fault of a plan for people, as the program says it: its place, a sentence, and what was found there.

import { mistakeOf } from "../page/mistakes/mistake.mjs";
import { escaped } from "../page/mistakes/texts.mjs";
import { compact } from "./compact.mjs";

/** How many bytes of what was found are shown. */
const MOST_SHOWN = 60;

/** What there is to say of a fault, as `refused S7 agent 0 job 1 command 1`, of a plan's text or bytes. */
export function explained(fault, plan) {
  const { code, line, column, path, sentence, found } = mistakeOf(fault, plan);
  const place = line === undefined ? JSON.stringify(path.map((part) => `/${escaped(part)}`).join("")) : `line ${line} column ${column}`;
  return [`${code} ${place}`, sentence, ...(found ? [`found ${cut(compact(found))}`] : [])].map((said) => `${said}\n`).join("");
}

/** The letters that end within so many bytes, and two dots, if there are more. */
function cut(text) {
  const bytes = new TextEncoder().encode(text);
  if (bytes.length <= MOST_SHOWN) return text;
  let end = MOST_SHOWN;
  while ((bytes[end] & 0xc0) === 0x80) end -= 1;
  return `${new TextDecoder().decode(bytes.subarray(0, end))}..`;
}
