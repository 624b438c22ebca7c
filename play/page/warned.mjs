// The warnings of what is written, below the editor: each is a button that goes to its place, which is marked.

import { readJson } from "./json.mjs";
import { memberAt } from "./mistakes/parts.mjs";
import { counted } from "./report.mjs";
import { warningsOf } from "./warnings.mjs";

/** So many are listed; of more it is said how many they are. */
const MOST = 100;

/** The warnings of a plan's text in the order of their places, each with its place. */
export function warningsIn(text) {
  const warnings = warningsOf(text);
  if (warnings.length === 0) return [];
  const { value } = readJson(text);
  return warnings.map((warning) => ({ ...warning, place: placeOf(memberAt(value, warning.path).value) })).sort((one, other) => one.place.start - other.place.start);
}

const placeOf = ({ start, end }) => ({ start, end });

export function showWarnings(place, editor, warnings) {
  const list = document.createElement("ol"), more = warnings.length - MOST;
  list.append(...warnings.slice(0, MOST).map((warning) => row(button(editor, warning))), ...(more > 0 ? [row(`${more} more`)] : []));
  place.className = "warning";
  place.replaceChildren(`No fault. ${counted(warnings.length, "warning")}:`, list);
}

function row(content) {
  const item = document.createElement("li");
  item.append(content);
  return item;
}

function button(editor, { place, sentence }) {
  const found = Object.assign(document.createElement("button"), { type: "button", textContent: `Line ${editor.line(place.start)}: ${sentence}` });
  found.addEventListener("click", () => editor.visit(place));
  return found;
}
