// What surrounds one value of a large heap, and where the picture has it: in the middle column the value, to the left what
// leads to it, to the right what it leads to.

import { folded } from "./layout.mjs";

/** How many steps are gone from the value, and how many nodes are taken at most. */
const STEPS = 2;
const MOST = 40;

/** The part of a graph around one of its nodes. */
export function around({ nodes, edges }, centre) {
  const found = new Set([centre]);
  let ends = [centre];
  for (let step = 0; step < STEPS; step += 1) {
    const next = edges.flatMap(({ from, to }) => (ends.includes(from) ? [to] : ends.includes(to) ? [from] : []));
    ends = [...new Set(next)].filter((key) => !found.has(key)).slice(0, MOST - found.size);
    for (const key of ends) found.add(key);
  }
  const byKey = new Map(nodes.map((node) => [node.key, node]));
  // A point stands between its WeakMap and its key, so these are there with it.
  for (const key of [...found]) for (const end of [byKey.get(key)?.weakmap, byKey.get(key)?.under]) if (end) found.add(end);
  return { nodes: nodes.filter(({ key }) => found.has(key)), edges: edges.filter(({ from, to }) => found.has(from) && found.has(to)) };
}

/** The places of a part around a node. */
export class Around {
  constructor({ nodes, edges }, centre) {
    const columns = new Map([[centre, 0]]);
    for (let ends = [centre]; ends.length > 0; ) {
      const next = [];
      for (const { from, to } of edges) {
        for (const [one, other, by] of [[from, to, 1], [to, from, -1]]) {
          if (!ends.includes(one) || columns.has(other)) continue;
          columns.set(other, columns.get(one) + by);
          next.push(other);
        }
      }
      ends = next;
    }
    this.place(nodes, columns);
  }

  place(nodes, columns) {
    const first = Math.min(...columns.values()), rows = new Map(), places = new Map();
    for (const { key, shape } of nodes) {
      if (shape === "point") continue;
      const column = (columns.get(key) ?? 0) - first, row = rows.get(column) ?? 0;
      places.set(key, { column, row });
      rows.set(column, row + 1);
    }
    this.places = folded(places, () => true);
    const all = [...this.places.values()];
    this.columns = Math.max(...all.map(({ column }) => column)) + 1;
    this.rows = Math.max(...all.map(({ row }) => row)) + 1;
  }

  placeOf(key) {
    return this.places.get(key);
  }
}
