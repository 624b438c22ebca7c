// Help for the word at the caret: below the editor stand the words that may be meant, each with its form and a line of meaning.
// Control and space go there; the arrows choose, Enter writes the word, and Escape goes back.

import { atCaret } from "./caret.mjs";

const HINT = "Control and space: the words that may stand here.";

const element = (name, content) => Object.assign(document.createElement(name), { textContent: content });

export class Help {
  /** `words` has lists of words by their names. What is known of a word is said in `heard`, for those who hear the page. */
  constructor({ area, list, heard }, editor, words) {
    Object.assign(this, { area, list, heard, editor, words, found: [], current: 0, place: null });
    for (const kind of ["input", "keyup", "click", "focus"]) area.addEventListener(kind, () => this.look());
    area.addEventListener("keydown", (event) => this.enter(event));
    list.addEventListener("keydown", (event) => this.press(event));
    list.addEventListener("click", ({ target }) => this.click(target.closest("li")));
    this.look();
  }

  /** Looks at the caret. Without a letter nothing is offered, if that is not asked for. */
  look(isAsked = false) {
    const { selectionStart: start, selectionEnd: end } = this.area;
    this.place = start === end ? atCaret(this.editor.text, start) : null;
    this.show(this.place === null ? [] : this.fitting(this.place, isAsked));
  }

  fitting({ list, before, whole, isKnown }, isAsked) {
    const words = this.words[list], exact = words.filter(({ word }) => word === whole);
    if (isKnown) return exact;
    if (before === "" && !isAsked) return [];
    const begun = words.filter(({ word }) => word.toLowerCase().startsWith(before.toLowerCase()) && !exact.some((one) => one.word === word));
    return [...exact, ...begun];
  }

  show(found) {
    const isSame = found.length === this.found.length && found.every((one, at) => one === this.found[at]);
    if (isSame && found.length > 0) return;
    Object.assign(this, { found, current: 0 });
    this.list.replaceChildren(...found.map(({ form, meaning }, at) => {
      const row = element("li", "");
      row.append(element("code", form), " ", element("span", meaning));
      return Object.assign(row, { id: `word-${at}`, role: "option" });
    }));
    if (found.length === 0) this.list.append(Object.assign(element("li", HINT), { className: "hint", role: "option", ariaDisabled: "true" }));
    this.heard.textContent = found.length === 1 ? `${found[0].form}: ${found[0].meaning}` : found.length === 0 ? "" : `${found.length} words`;
    this.mark();
  }

  /** Marks the current word, as long as the list has the keys. */
  mark() {
    const rows = [...this.list.children];
    rows.forEach((row, at) => { row.ariaSelected = at === this.current && this.found.length > 0; });
    if (this.found.length === 0) return this.list.removeAttribute("aria-activedescendant");
    this.list.setAttribute("aria-activedescendant", `word-${this.current}`);
    return rows[this.current].scrollIntoView({ block: "nearest" });
  }

  // Keys

  enter(event) {
    const isAsked = (event.key === " " && event.ctrlKey) || (event.key === "ArrowDown" && event.altKey);
    if (!isAsked) return;
    event.preventDefault();
    this.look(true);
    if (this.found.length > 0) this.list.focus();
  }

  press(event) {
    if (event.ctrlKey || event.metaKey || event.altKey || this.found.length === 0) return;
    const to = { ArrowDown: this.current + 1, ArrowUp: this.current - 1, Home: 0, End: Infinity }[event.key];
    if (to !== undefined) {
      this.current = Math.min(this.found.length - 1, Math.max(0, to));
      this.mark();
    } else if (event.key === "Enter") this.write();
    else if (event.key === "Escape") this.area.focus();
    else return;
    event.preventDefault();
  }

  click(row) {
    const at = [...this.list.children].indexOf(row);
    if (at < 0 || this.found.length === 0) return;
    this.current = at;
    this.write();
  }

  /** Writes the current word in the place of the one at the caret. */
  write() {
    const { start, end, isKnown } = this.place, { word } = this.found[this.current];
    this.area.focus();
    if (!isKnown) this.editor.replace(start, end, word);
    this.look();
  }
}
