// The plan of a script: its text, in which the commands of the current step are marked. A press on a command leads to its step.

import { readJson } from "./json.mjs";
import { commandIn } from "./places.mjs";

const element = (name, content) => Object.assign(document.createElement(name), { textContent: content });

export class Planned {
  /** `choose` is called with the place of a command that is pressed. */
  constructor(place, choose) {
    Object.assign(this, { place, text: "", value: null, last: null });
    place.addEventListener("click", () => {
      const found = this.at(offsetIn(place));
      if (found) choose(found);
    });
  }

  show(text) {
    this.text = text;
    this.value = readJson(text).value;
    this.last = null;
    this.mark([]);
  }

  /** Marks commands, by their places in the plan. */
  mark(places) {
    const letters = places.map((place) => commandIn(this.value, place)).filter(Boolean);
    if (letters.length === 0) return this.place.replaceChildren(this.text);
    const start = Math.min(...letters.map((one) => one.start)), end = Math.max(...letters.map((one) => one.end));
    const mark = element("mark", this.text.slice(start, end));
    this.place.replaceChildren(this.text.slice(0, start), mark, this.text.slice(end));
    if (this.place.clientHeight > 0) this.reveal(mark);
  }

  reveal(mark) {
    const top = mark.offsetTop - this.place.offsetTop, { scrollTop, clientHeight } = this.place;
    if (top < scrollTop || top + mark.offsetHeight > scrollTop + clientHeight) this.place.scrollTop = top - clientHeight / 3;
  }

  /** The place of the command that has a letter. */
  at(letter) {
    const agents = this.value?.members.get("agents").value.items ?? [];
    for (const [agent, { members }] of agents.entries()) {
      for (const [callback, { value }] of members.get("callbacks").value.members) {
        const command = numberAt(value.items, letter);
        if (command > 0) return { agent, callback, command };
      }
      for (const [job, { members: parts }] of members.get("jobs").value.items.entries()) {
        const command = numberAt(parts.get("run").value.items, letter);
        if (command > 0) return { agent, job: job + 1, command };
      }
    }
    return null;
  }
}

/** The number, from 1, of the part that has a letter; 0 where none has. */
const numberAt = (items, letter) => items.findIndex(({ start, end }) => start <= letter && letter < end) + 1;

/** How many letters of a place stand before the pressed one. */
function offsetIn(place) {
  const { focusNode, focusOffset } = getSelection();
  if (focusNode === null || !place.contains(focusNode)) return -1;
  const before = document.createRange();
  before.setStart(place, 0);
  before.setEnd(focusNode, focusOffset);
  return before.toString().length;
}
