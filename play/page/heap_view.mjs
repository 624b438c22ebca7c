// The heap in the page: its picture after a row, and what is said of it and of the chosen value.

import { Chosen } from "./chosen.mjs";
import { drawingOf } from "./drawing.mjs";
import { graphOf, plain } from "./graph.mjs";
import { Layout, MOST_DRAWN } from "./layout.mjs";
import { Around, around } from "./around.mjs";
import { identityOf } from "./replay.mjs";
import { linesOf, saidOf } from "./said.mjs";
import { sourcesOf, wayTo } from "./words.mjs";

/** The variables that hold no object, of which so many are told. */
const MOST_PLAIN = 12;
const ZOOM = { least: 0.25, most: 4, step: 1.25 };

const element = (name, content) => Object.assign(document.createElement(name), { textContent: content });

export class HeapView {
  /** `at` gives the elements of the page; `rows` says how the list counts and calls rows of the trace, and `ask` asks the engine
      for the lines of a plan's trace. */
  constructor(at, rows, ask) {
    this.told = new Chosen(at, rows, ask);
    Object.assign(this, { at, trace: null, row: -1, from: 0, about: null, agent: "", chosen: null, layouts: new Map(), heap: null });
    this.isNew = false;
    /** How large the picture is drawn; "fit" so that all of it is seen, and null so that it can be read. */
    this.zoom = null;
    at("heap").addEventListener("click", (event) => this.choose(event.target));
    at("heap").addEventListener("keydown", (event) => this.press(event));
    for (const [id, by] of [["smaller", 1 / ZOOM.step], ["larger", ZOOM.step]]) at(id).addEventListener("click", () => this.zoomBy(by));
    at("fit").addEventListener("click", () => this.fit());
    at("reasons").addEventListener("keydown", ({ key }) => { if (key === "Escape") this.focus(`n${this.chosen}`); });
    at("centre").addEventListener("change", () => this.put(Number(at("centre").value)));
    new ResizeObserver(() => this.draw()).observe(at("heap"));
  }

  /** Takes another trace, or none. */
  begin(trace) {
    Object.assign(this, { trace, row: -1, chosen: null, heap: null, zoom: null });
    this.layouts.clear();
  }

  /** Draws the heap of an agent after a step, which goes from one row of the trace to another. It is about some values, or about
      those that its commands read and give. */
  show(agent, { from, row, about = null }) {
    Object.assign(this, { agent, from, row, about, isNew: false });
    this.draw();
  }

  clear() {
    for (const id of ["heap", "heard", "plain"]) this.at(id).replaceChildren();
    this.told.clear();
    this.at("legend").hidden = true;
  }

  /** The heap of the agent after the row. It is taken on from the last one, where that was the same agent's before. */
  state() {
    const { agent, row, trace } = this;
    if (this.heap === null || this.heap.agent !== agent || this.heap.row > row) this.heap = { agent, row: -1, state: trace.heap(agent) };
    for (const one of trace.rows.slice(this.heap.row + 1, row + 1)) if (one.agent === agent) this.heap.state.apply(one.line);
    this.heap.row = row;
    return this.heap.state;
  }

  layout(agent) {
    if (!this.layouts.has(agent)) this.layouts.set(agent, new Layout(this.trace, agent));
    return this.layouts.get(agent);
  }

  draw() {
    const { at } = this, place = at("heap");
    if (this.trace === null || place.clientWidth === 0) return this.clear();
    const { agent } = this, heap = this.state();
    this.tellPlain(agent, heap);
    const size = heap.things.size;
    at("centre").parentElement.hidden = size <= MOST_DRAWN;
    this.said = new Map();
    if (size + heap.emptied.length === 0) place.replaceChildren(element("p", "There is no object yet."));
    else if (size > MOST_DRAWN) this.paintAround(place, agent, heap);
    else this.paint(place, agent, heap, graphOf(heap, this.emptied()), this.layout(agent));
    this.at("legend").hidden = this.chosen !== null;
    if (this.chosen === null) return this.told.clear();
    const { trace, row, chosen: identity } = this;
    return this.told.show({ trace, agent, row, heap, identity }, this.said.get(`n${identity}`)?.led ?? []);
  }

  /** What the step's collections emptied. */
  emptied() {
    const rows = this.trace.rows.slice(this.from, this.row + 1);
    return rows.flatMap(({ line, agent }) => (agent === this.agent && line.event === "emptied" ? line.identities : []));
  }

  paint(place, agent, heap, graph, layout, ...before) {
    const had = place.contains(document.activeElement) ? document.activeElement.dataset.key : null;
    const size = { width: place.clientWidth - 4, height: place.clientHeight - 4, zoom: this.zoom }, touched = this.touched(agent);
    const { scrollLeft, scrollTop } = place, names = this.trace.names.get(agent);
    this.said = saidOf(graph.nodes, graph.edges, (identity) => names.told(identity, this.row));
    this.at("heard").replaceChildren(...linesOf(graph.nodes, this.said).map((line) => element("li", line)));
    const chosen = this.chosen === null ? null : `n${this.chosen}`;
    const marks = { lit: this.lit(agent, heap), touched, chosen, nameOf: (identity) => names.nameOf(identity), said: this.said };
    place.replaceChildren(...before, drawingOf(graph, layout, size, marks));
    place.scrollTo(scrollLeft, scrollTop);
    if (had) this.focus(had);
    for (const key of this.isNew ? [chosen] : touched) reveal(place, place.querySelector(`[data-key="${key}"]`));
  }

  focus(key) {
    this.at("heap").querySelector(`[data-key="${key}"]`)?.focus({ preventScroll: true });
  }

  /** Draws what is around the chosen value, or around what the step is about: the whole would be too much. */
  paintAround(place, agent, heap) {
    const [first] = this.touched(agent);
    const centre = this.chosen !== null && heap.things.has(this.chosen) ? `n${this.chosen}` : first;
    const said = `There are ${heap.things.size} values: more than ${MOST_DRAWN} can't be read in one picture.`;
    if (centre === undefined) {
      const most = heap.told.find(([, value]) => identityOf(value) !== null);
      if (most === undefined) return place.replaceChildren(element("p", `${said} No variable holds one.`));
      return this.paintPart(place, agent, heap, `n${identityOf(most[1])}`, said);
    }
    return this.paintPart(place, agent, heap, centre, said);
  }

  paintPart(place, agent, heap, centre, said) {
    const graph = graphOf(heap, this.emptied()), part = around(graph, centre);
    const what = `Here is what surrounds ${this.trace.told(agent, Number(centre.slice(1)), this.row)}. A press on another value goes there.`;
    this.paint(place, agent, heap, part, new Around(part, centre), element("p", `${said} ${what}`));
  }

  /** The keys of the values that the step reads or gives, if it is the drawn agent's. */
  touched(agent) {
    if (this.about !== null) return new Set(this.trace.rows[this.row].agent === agent ? this.about.map((identity) => `n${identity}`) : []);
    const found = new Set();
    for (const { line, agent: actor } of this.trace.rows.slice(this.from, this.row + 1)) {
      if (actor !== agent) continue;
      for (const value of [...(line.values ?? []), line.value, line.held, line.answer?.gives]) {
        if (identityOf(value) !== null) found.add(`n${identityOf(value)}`);
      }
    }
    return found;
  }

  /** The variables that hold no object. */
  tellPlain(agent, heap) {
    const isTold = ([name, value]) => identityOf(value) === null && value !== null && !(this.trace.isScript && name === "held");
    const held = heap.told.filter(isTold);
    const said = held.slice(0, MOST_PLAIN).map(([name, value]) => `${name} = ${plain(value)}`);
    const more = held.length > MOST_PLAIN ? `, and ${held.length - MOST_PLAIN} more` : "";
    const others = said.length > 0 ? ` Other variables: ${said.join(", ")}${more}.` : "";
    this.at("plain").replaceChildren(element("b", `Heap of ${agent}.`), others);
  }

  // Size

  zoomBy(by) {
    const drawn = this.at("heap").querySelector("svg");
    if (drawn !== null) this.zoom = Math.min(ZOOM.most, Math.max(ZOOM.least, Number(drawn.dataset.scale) * by));
    this.draw();
  }

  /** The whole picture, and a second time as large as it can be read. */
  fit() {
    this.zoom = this.zoom === "fit" ? null : "fit";
    this.draw();
  }

  // Why a value stays

  choose(target) {
    const node = target.closest("[data-identity]");
    const identity = node === null ? null : Number(node.dataset.identity);
    this.put(identity === this.chosen ? null : identity);
  }

  /** What is said of it takes some of the picture's room: so a new one is shown, as often as the room changes. */
  put(identity) {
    this.chosen = identity;
    this.isNew = identity !== null;
    this.draw();
  }

  press(event) {
    if (event.altKey && event.key === "ArrowDown" && this.told.focus()) return event.preventDefault();
    if (event.ctrlKey || event.metaKey || event.altKey) return null;
    const does = {
      "Enter": () => this.choose(event.target), " ": () => this.choose(event.target), "Escape": () => this.choose(this.at("heap")),
      "+": () => this.zoomBy(ZOOM.step), "-": () => this.zoomBy(1 / ZOOM.step), "0": () => this.fit(),
    }[event.key];
    if (!does) return null;
    does();
    return event.preventDefault();
  }

  /** The agent's last collection, and the way to the chosen value that it told; null where nothing is chosen. */
  way(agent) {
    if (this.chosen === null) return null;
    const row = this.trace.collection(agent, this.row);
    const kept = row < 0 ? new Map() : this.trace.rows[row].kept;
    return { row, kept, values: wayTo(kept, this.chosen) };
  }

  /** The keys of the nodes and the edges on the way to the chosen value. */
  lit(agent, heap) {
    const way = this.way(agent);
    const found = new Set(this.chosen === null ? [] : [`n${this.chosen}`]);
    for (const identity of way?.values ?? []) {
      const keys = behind(way.kept.get(identity), heap);
      for (const key of [...keys, `n${identity}`]) found.add(key);
      for (const key of keys) found.add(`${key} ${keys.at(-1) === key ? `n${identity}` : keys.at(-1)}`);
    }
    return found;
  }
}

/** Scrolls a place so far that one of its nodes can be seen. */
function reveal(place, node) {
  if (node === null) return;
  const inside = node.getBoundingClientRect(), outside = place.getBoundingClientRect();
  place.scrollTop += Math.max(0, inside.bottom + 12 - outside.bottom) - Math.max(0, outside.top + 12 - inside.top);
  place.scrollLeft += Math.max(0, inside.right + 12 - outside.right) - Math.max(0, outside.left + 12 - inside.left);
}

/** The keys of the nodes that a value is kept by, the nearest last: of an entry the WeakMap, its key and the point. */
function behind(by, heap) {
  if (by.variable !== undefined) return [`var ${by.variable}`];
  if (by.keptalive) return ["KeptAlive"];
  if (by.registration !== undefined) return [`n${heap.registrations.get(by.registration)?.registry}`];
  const nodes = sourcesOf(by).map((identity) => `n${identity}`);
  return by.weakmap === undefined ? nodes : [...nodes, `e${by.weakmap}_${by.key}`];
}
