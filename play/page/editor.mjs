// The editor: a text area, with the lines' numbers beside it and the marked letters behind it. Both are drawn for the lines
// that can be seen alone, as plans may have very many.

/** The pixels before the first line, and the height of a line; page.css has the same. */
const PADDING = 8;
const HEIGHT = 20;
/** A longer text is set at once, and can't be taken back by keys. */
const MOST_TAKEN_BACK = 200_000;

export class Editor {
  constructor(area, numbers, marks) {
    Object.assign(this, { area, numbers, marks, starts: [0], place: null, kind: "", warned: [] });
    area.addEventListener("scroll", () => this.draw());
    area.addEventListener("keydown", (event) => this.indent(event));
    new ResizeObserver(() => this.draw()).observe(area);
  }

  get text() {
    return this.area.value;
  }

  set text(text) {
    if (text !== this.text) this.write(text);
    this.area.setSelectionRange(0, 0);
    this.area.scrollTo(0, 0);
    this.warned = [];
    this.mark(null);
  }

  /** Sets the text so that Control and Z bring back what was there. Only this call of a browser does that. */
  write(text) {
    const had = document.activeElement;
    if (this.text !== "" && text.length + this.text.length < MOST_TAKEN_BACK) {
      this.area.focus({ preventScroll: true });
      this.area.select();
      document.execCommand(text === "" ? "delete" : "insertText", false, text);
      had?.focus({ preventScroll: true });
    }
    if (this.text !== text) this.area.value = text;
  }

  /** Writes letters in the place of others, as if they were typed. */
  replace(start, end, text) {
    this.area.setSelectionRange(start, end);
    document.execCommand("insertText", false, text);
  }

  /** A new line begins with as many blanks as the one before it, and with two more behind an opening bracket. */
  indent(event) {
    if (event.key !== "Enter" || event.ctrlKey || event.metaKey || event.altKey || event.isComposing) return;
    const { selectionStart: start, selectionEnd: end } = this.area;
    const line = this.text.slice(this.text.lastIndexOf("\n", start - 1) + 1, start);
    const blanks = line.match(/^[ \t]*/)[0] + (/[[{(]\s*$/.test(line) ? "  " : "");
    if (blanks === "") return;
    event.preventDefault();
    this.replace(start, end, `\n${blanks}`);
  }

  /** Takes the text as it is now, and marks the letters of a place in it, or none. The kind is a class of the mark. */
  mark(place, kind = "fault") {
    this.place = place;
    this.kind = kind;
    this.starts = [0, ...Array.from(this.text.matchAll(/\n/g), ({ index }) => index + 1)];
    this.draw();
  }

  /** Marks the places of warnings besides, which come in their order. Two may be about one command. */
  warn(places) {
    this.warned = places.filter(({ start }, at) => start !== places[at - 1]?.start);
    this.draw();
  }

  /** The line of a letter, from 1. */
  line(at) {
    const after = this.starts.findIndex((start) => start > at);
    return after < 0 ? this.starts.length : after;
  }

  /** Selects a place and shows it: of warnings the next one behind the caret, or the first one; else the marked place. */
  visit(place = this.next() ?? this.place) {
    if (place === null) return;
    const { start, end } = place;
    this.area.focus();
    this.area.setSelectionRange(start, end);
    this.area.scrollTop = Math.max(0, (this.line(start) - 1) * HEIGHT - this.area.clientHeight / 3);
    this.revealAcross(place);
  }

  next() {
    return this.warned.find(({ start }) => start > this.area.selectionStart) ?? this.warned[0];
  }

  /** Scrolls so far that the marked place can be seen. */
  reveal() {
    const top = PADDING + (this.line(this.place.start) - 1) * HEIGHT, { scrollTop, clientHeight } = this.area;
    if (top < scrollTop || top > scrollTop + clientHeight - 2 * HEIGHT) this.area.scrollTop = top - clientHeight / 3;
    this.revealAcross(this.place);
  }

  /** The same to the left and to the right: a long line is shown from its beginning, if the place can be seen so. */
  revealAcross(place) {
    this.draw();
    const [first] = [...this.marks.children].find(({ start }) => start === place.start)?.getClientRects() ?? [];
    if (first === undefined) return;
    const { scrollLeft, clientWidth } = this.area, left = first.left - this.area.getBoundingClientRect().left + scrollLeft;
    // Of a place that has no room its beginning is to be seen.
    const right = Math.min(left + first.width, left + clientWidth / 2);
    if (left >= scrollLeft && right <= scrollLeft + clientWidth) return;
    this.area.scrollLeft = right <= clientWidth ? 0 : left - clientWidth / 3;
    this.draw();
  }

  draw() {
    const { scrollTop, scrollLeft, clientHeight } = this.area;
    const first = Math.max(0, Math.floor((scrollTop - PADDING) / HEIGHT));
    const last = Math.min(this.starts.length, first + Math.ceil(clientHeight / HEIGHT) + 2);
    const top = PADDING + first * HEIGHT - scrollTop;
    const numbers = Array.from({ length: Math.max(0, last - first) }, (_, at) => first + at + 1);
    this.numbers.textContent = numbers.join("\n");
    this.numbers.style.transform = `translateY(${top}px)`;
    this.numbers.style.minWidth = `${String(this.starts.length).length}ch`;
    this.marks.replaceChildren(...this.marked(this.starts[first], this.starts[last] ?? this.text.length));
    this.marks.style.transform = `translate(${-scrollLeft}px, ${top}px)`;
  }

  /** The letters from `from` up to `to`, with what is marked among them; nothing where nothing is. */
  marked(from, to) {
    const text = this.text, parts = [];
    let passed = from;
    for (const { place, kind } of this.places()) {
      const start = Math.max(place.start, from), end = Math.min(place.end, to);
      if (start > end) continue;
      const mark = Object.assign(document.createElement("mark"), { className: kind, start: place.start });
      // A place past the last letter still shows.
      mark.textContent = text.slice(start, end) || " ";
      parts.push(text.slice(passed, start), mark);
      passed = end;
    }
    return parts.length === 0 ? [] : [...parts, text.slice(passed, to)];
  }

  /** All places that are marked, in their order, each with the classes of its mark. A warning may be about the current step. */
  places() {
    if (this.place === null) return this.warned.map((place) => ({ place, kind: "warned" }));
    const others = this.warned.filter(({ start }) => start !== this.place.start);
    const kind = others.length < this.warned.length ? `${this.kind} warned` : this.kind;
    const all = [{ place: this.place, kind }, ...others.map((place) => ({ place, kind: "warned" }))];
    return all.sort((one, other) => one.place.start - other.place.start);
  }
}
