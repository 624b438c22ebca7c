// The list of a trace's steps, of which one is the current one. A step may open to what it is made of, and notes stand below it.
// Only those that can be seen are drawn, as there may be very many.

/** The height of a row in pixels; page.css has the same. */
const HEIGHT = 22;
/** Without room for so many rows around it, the current one is scrolled to. */
const AROUND = 2;

export class Steps {
  /** `choose` is called with the number of a row that is clicked, or gone to by a key. */
  constructor(box, choose) {
    Object.assign(this, { box, choose, steps: [], rows: [], current: 0, hasLedger: false });
    this.sheet = box.appendChild(Object.assign(document.createElement("div"), { className: "sheet", role: "presentation" }));
    box.addEventListener("scroll", () => this.draw());
    box.addEventListener("click", (event) => this.click(event));
    box.addEventListener("keydown", (event) => this.press(event));
    new ResizeObserver(() => this.go(this.current)).observe(box);
  }

  show(steps) {
    this.steps = steps;
    this.list();
    const agents = new Set(this.rows.slice(0, 2000).map(({ agent }) => agent));
    const letters = Math.max(1, ...[...agents].map((agent) => (agent ?? "-").length));
    this.sheet.style.setProperty("--name", `${Math.min(letters, 12)}ch`);
    this.sheet.classList.toggle("alone", agents.size < 2 && steps.some(({ commands }) => commands.length > 0));
    this.box.scrollTop = 0;
    this.draw();
  }

  /** The rows: the steps, and below each what it is made of, if it is open, and its notes. Those of the ledger are there if they
      are asked for. */
  list() {
    this.rows = [];
    const add = (row) => { if (this.hasLedger || row.kind !== "ledger") this.rows.push(row); };
    for (const step of this.steps) {
      add(step);
      if (step.isOpen) step.commands.forEach(add);
      step.notes.forEach(add);
    }
    this.sheet.style.height = `${this.rows.length * HEIGHT}px`;
    this.sheet.style.setProperty("--count", `${String(this.rows.length).length}ch`);
  }

  /** What a step opens to. */
  inside({ commands }) {
    return this.hasLedger ? commands : commands.filter(({ kind }) => kind !== "ledger");
  }

  /** Opens a step, or closes it. The current row is that step then. */
  toggle(row) {
    const step = this.rows[row];
    if (!step || this.inside(step).length === 0) return;
    step.isOpen = !step.isOpen;
    this.list();
    this.choose(row);
  }

  /** Marks a row, and shows it. */
  go(row) {
    this.current = row;
    const top = row * HEIGHT, { scrollTop, clientHeight } = this.box;
    if (top < scrollTop + HEIGHT) this.box.scrollTop = top - AROUND * HEIGHT;
    else if (top > scrollTop + clientHeight - 2 * HEIGHT) this.box.scrollTop = top - clientHeight + (AROUND + 1) * HEIGHT;
    this.draw();
  }

  click({ target }) {
    const row = target.closest(".row");
    if (row === null) return;
    if (target.closest(".opener")) this.toggle(Number(row.dataset.row));
    else this.choose(Number(row.dataset.row));
  }

  press(event) {
    if (event.ctrlKey || event.metaKey || event.altKey || this.rows.length === 0) return;
    const page = Math.max(1, Math.floor(this.box.clientHeight / HEIGHT) - 1);
    const by = { ArrowDown: 1, ArrowUp: -1, PageDown: page, PageUp: -page, Home: -Infinity, End: Infinity }[event.key];
    if (by !== undefined) this.choose(Math.min(this.rows.length - 1, Math.max(0, this.current + by)));
    else if (event.key === "Enter" || event.key === " ") this.toggle(this.current);
    else return;
    event.preventDefault();
  }

  draw() {
    const first = Math.max(0, Math.floor(this.box.scrollTop / HEIGHT) - 5);
    const last = Math.min(this.rows.length, first + Math.ceil(this.box.clientHeight / HEIGHT) + 10);
    this.sheet.replaceChildren(...this.rows.slice(first, last).map((row, at) => this.row(row, first + at)));
    if (first <= this.current && this.current < last) this.box.setAttribute("aria-activedescendant", `row-${this.current}`);
    else this.box.removeAttribute("aria-activedescendant");
  }

  row(step, number) {
    const { event, answer } = step.words;
    const row = document.createElement("div");
    row.className = `row ${step.kind}${step.may ? " may" : ""}${step.level > 0 ? " inner" : ""}`;
    row.id = `row-${number}`;
    row.dataset.row = number;
    row.dataset.count = number + 1;
    row.style.top = `${number * HEIGHT}px`;
    row.role = "treeitem";
    row.ariaLevel = step.level + 1;
    row.ariaSelected = number === this.current;
    row.ariaPosInSet = number + 1;
    row.ariaSetSize = this.rows.length;
    row.append(...[step.agent ?? "-", event, answer].map(cell));
    if (this.inside(step).length > 0) {
      row.ariaExpanded = step.isOpen;
      row.children[1].prepend(opener(step));
    }
    return row;
  }
}

function opener({ isOpen }) {
  return Object.assign(document.createElement("b"), { className: "opener", textContent: isOpen ? "▾ " : "▸ ", title: "Its commands in the plan (Enter)" });
}

function cell(text) {
  return Object.assign(document.createElement("span"), { textContent: text, title: text.length > 12 ? text : "" });
}
