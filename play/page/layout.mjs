// Where the picture of an agent's heap has each thing: in columns by how far it is from the roots. A root or a value has one
// place for the whole run, which nothing else has while it is there.

import { identityOf } from "./replay.mjs";
import { distances } from "./graph.mjs";

/** A heap with more values is not drawn. */
export const MOST_DRAWN = 200;
/** The rows of a column. One with more becomes several beside each other, if the roots do not take more. */
const MOST_ROWS = 12;
/** How many values are looked at for the columns, over all rows together: a long run shall not make the page wait. */
const MOST_LOOKED_AT = 2_000_000;

/** The places of all that an agent has in a run. */
export class Layout {
  constructor(trace, agent) {
    this.places = new Map();
    this.rows = 0;
    const lives = livesOf(trace, agent);
    this.columns = lives.reduce((most, { column }) => Math.max(most, column), 0) + 1;
    this.fill(lives.filter(({ column }) => column === 0).sort((one, other) => other.isFixed - one.isFixed || one.from - other.from));
    for (let column = 1; column < this.columns; column += 1) this.fill(lives.filter((life) => life.column === column));
    this.fold(lives.filter(({ column, isFixed }) => column === 0 && isFixed));
  }

  /** Roots that a collection finds stay in one column. Beside them values stand as far down as they do, next to what holds them. */
  fold(roots) {
    const old = this.places, most = Math.max(MOST_ROWS, ...roots.map(({ key }) => old.get(key).row + 1));
    this.places = new Map();
    this.rows = 0;
    for (const [key, { column, row }] of folded(old, ({ column }) => column > 0, most)) this.put(key, column, row);
  }

  /** The column and the row of a node. What was not looked at comes last. */
  placeOf(key) {
    if (!this.places.has(key)) this.put(key, key.startsWith("n") ? 1 : 0, this.rows);
    return this.places.get(key);
  }

  put(key, column, row) {
    this.places.set(key, { column, row });
    this.columns = Math.max(this.columns, column + 1);
    this.rows = Math.max(this.rows, row + 1);
  }

  /** Puts what is in one column into rows: of roots those first that a collection finds, and then the older ones; each near what
      leads to it. */
  fill(lives) {
    const taken = [];
    for (const life of lives) {
      // Values come by age: what a row had before its last one is gone by then.
      const looked = (at) => (life.column === 0 ? taken[at] : taken[at]?.slice(-1)) ?? [];
      const row = nearest(this.wished(life), (at) => looked(at).every((other) => other.to < life.from || life.to < other.from));
      (taken[row] ??= []).push(life);
      this.put(life.key, life.column, row);
    }
  }

  /** The row that is wished for: that of the uppermost root, as those that a collection finds stand above the others; or the middle
      of those of the values that lead there. */
  wished({ column, sources }) {
    const wanted = [...sources].filter((key) => key.startsWith("n") === column > 1);
    const rows = wanted.flatMap((key) => this.places.get(key)?.row ?? []);
    if (rows.length === 0) return 0;
    if (column === 1) return Math.min(...rows);
    return Math.round(rows.reduce((sum, row) => sum + row, 0) / rows.length);
  }
}

/** Places of which no column is long: such a one becomes several, if it may. */
export function folded(places, mayFold, most = MOST_ROWS) {
  const heights = [];
  for (const place of places.values()) {
    const rows = mayFold(place) ? place.row + 1 : 1;
    heights[place.column] = Math.max(heights[place.column] ?? 1, rows);
  }
  const firsts = [0];
  for (let column = 0; column < heights.length; column += 1) firsts.push(firsts[column] + Math.ceil((heights[column] ?? 1) / most));
  const moved = ({ column, row }) => ({ column: firsts[column] + Math.floor(row / most), row: row % most });
  return new Map([...places].map(([key, place]) => [key, mayFold(place) ? moved(place) : { ...place, column: firsts[place.column] }]));
}

/** The row nearest to a wished one that is free. */
function nearest(wished, isFree) {
  for (let off = 0; ; off += 1) {
    if (isFree(wished + off)) return wished + off;
    if (off <= wished && isFree(wished - off)) return wished - off;
  }
}

/** What an agent has when it is drawn, in order of coming: of each root and each value from when to when it is there, its
    column, and the keys of what leads to it at some time, the first one first. */
function livesOf(trace, agent) {
  const heap = trace.heap(agent), found = new Map();
  let left = MOST_LOOKED_AT;
  trace.rows.forEach(({ line, agent: actor, kept }, row) => {
    if (actor !== agent) return;
    heap.apply(line);
    for (const identity of heap.emptied) see(found, `n${identity}`, row, 1);
    const size = heap.things.size + heap.variables.size;
    left -= size;
    if (left < 0 || heap.things.size > MOST_DRAWN) return;
    for (const identity of heap.things.keys()) see(found, `n${identity}`, row, 1);
    for (const [from, to] of links(heap)) {
      if (!from.startsWith("n")) see(found, from, row, 0).isFixed ||= kept !== null;
      found.get(to)?.sources.add(from);
    }
    measure(heap, found, kept !== null);
  });
  return [...found.values()];
}

/** What is seen at a row is there from the first such row to the last. A collection fixes its place. */
function see(found, key, row, column) {
  if (!found.has(key)) found.set(key, { key, from: row, to: row, column, isFixed: false, sources: new Set() });
  const life = found.get(key);
  life.to = row;
  return life;
}

function* links({ told, keptAlive, things }) {
  const to = (value) => `n${identityOf(value)}`;
  for (const [name, value] of told) if (identityOf(value) !== null) yield [`var ${name}`, to(value)];
  for (const identity of keptAlive) yield ["KeptAlive", `n${identity}`];
  for (const [identity, { properties, entries }] of things) {
    for (const value of [...properties.values(), ...entries.values()]) yield [`n${identity}`, to(value)];
  }
}

/** A value's column is how far it is at the first collection that it outlives; else the farthest that it ever is. */
function measure(heap, found, isFixed) {
  for (const [identity, distance] of distances(heap)) {
    const life = found.get(`n${identity}`);
    if (life.isFixed) continue;
    life.column = isFixed ? distance : Math.max(life.column, distance);
    life.isFixed = isFixed;
  }
}
