// What the page says of the chosen value: all that leads to it, which of that can be cut, and why it stayed at the last
// collection.

import { compared, cutsOf, saidOfCut } from "./cutting.mjs";
import { saidOfAll } from "./leading.mjs";
import { reason, wayTo } from "./words.mjs";

const element = (name, content) => Object.assign(document.createElement(name), { textContent: content });

function list(kind, items) {
  const made = document.createElement(kind);
  made.append(...items);
  return made;
}

export class Chosen {
  /** `at` gives the elements of the page; `rows` says how the list counts and calls rows of the trace, and `ask` asks the engine
      for the lines of a plan's trace. */
  constructor(at, rows, ask) {
    Object.assign(this, { at, rows, ask, shown: null });
  }

  clear() {
    this.shown = null;
    for (const id of ["edges", "why", "cut"]) this.at(id).replaceChildren();
  }

  /** Shows what there is to say of a value of an agent after a row. `led` is what it leads to. */
  show(state, led) {
    const { trace, agent, row, heap, identity } = state, count = this.rows.length;
    // Drawn anew, a button would lose the focus. Where the list has more rows, or fewer, they are counted otherwise.
    const parts = { trace, agent, row, identity, count };
    if (this.shown !== null && Object.keys(parts).every((part) => this.shown.parts[part] === parts[part])) return;
    Object.assign(state, { parts });
    this.shown = state;
    this.say([]);
    const name = (one, known) => trace.told(agent, one, row, known);
    this.at("edges").replaceChildren(...(heap.things.has(identity) ? this.leading(state, name, led) : []));
    this.at("why").replaceChildren(...this.why(state, name));
  }

  /** Goes to what is said, if there is anything. */
  focus() {
    if (this.shown === null) return false;
    (this.at("edges").querySelector("button") ?? this.at("reasons")).focus();
    return true;
  }

  // All that leads to it

  leading(state, name, led) {
    const { trace, heap, identity } = state;
    const found = saidOfAll(heap, identity, { name, hides: (variable) => trace.hides(variable) });
    const said = [element("p", found.length === 0 ? `Nothing leads to ${name(identity)}.` : `What leads to ${name(identity)}:`)];
    if (found.length > 0) said.push(list("ul", found.map(({ edge, text }) => this.item(state, edge, text))));
    if (led.length > 0) said.push(element("p", `What it leads to: ${led.join("; ")}.`));
    return said;
  }

  item(state, edge, text) {
    const item = element("li", text), commands = edge.isWeak ? null : cutsOf(edge, state.heap);
    item.className = edge.isWeak ? "weak" : "strong";
    if (commands === null) return item;
    const button = Object.assign(element("button", "Cut"), { type: "button", title: "Runs the plan without this from here on, and says what goes" });
    button.setAttribute("aria-label", `Cut ${text}`);
    button.addEventListener("click", () => this.cut(state, commands, text));
    item.append(" ", button);
    return item;
  }

  /** Says what goes at the next collection if an edge is cut. What is written, and the steps, stay as they are. */
  async cut(state, commands, what) {
    const { trace, agent, row, heap, identity } = state;
    this.say([element("p", "running ..")]);
    const found = await compared({ trace, text: trace.plan, agent, row, passed: heap.passed }, commands, this.ask);
    if (this.shown !== state) return;
    const because = (by, other, after) => reason(by, identity, (one, known) => other.told(agent, one, after, known), trace);
    const where = row < 0 ? "from the beginning on" : `after ${this.rows.spelled(row)}`;
    const said = found === null ? ["It could not be run."] : saidOfCut(found, { agent, chosen: identity, what, where, reason: because });
    this.say(said.map((line) => element("p", line)));
  }

  say(lines) {
    this.at("cut").replaceChildren(...lines);
  }

  // Why it stayed

  why({ trace, row, agent, heap, identity }, name) {
    const it = name(identity), only = (said) => [element("p", said)];
    if (!heap.kinds.has(identity)) return only(`${it} is not there yet.`);
    if (!heap.things.has(identity)) return only(`${it} was emptied.`);
    const last = trace.collection(agent, row);
    if (last < 0) return only(`No collection has said yet what keeps ${it}.`);
    const { kept } = trace.rows[last], values = wayTo(kept, identity), number = this.rows.numberOf(last);
    if (values.length === 0) return only(`The last collection (row ${number}) says of nothing that it keeps ${it}.`);
    const steps = values.map((one) => element("li", reason(kept.get(one), one, name, trace)));
    return [element("p", `Why ${it} stayed at the last collection (row ${number}):`), list("ol", steps)];
  }
}
