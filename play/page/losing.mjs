// Since when nothing leads to a value: of each value of an agent the rows after which no root led there any more.

import { distances } from "./graph.mjs";

/** How many values are looked at, over all rows together: a long run shall not make the page wait. */
const MOST_LOOKED_AT = 3_000_000;
/** What changes nothing that leads to a value. */
const IDLE = new Set(["job", "cleanup job", "skipped", "agent ends", "refused"]);

export class Losses {
  constructor(trace, agent) {
    /** The rows by the number of the value, rising. */
    this.rows = new Map();
    this.look(trace, agent);
  }

  look(trace, agent) {
    const heap = trace.heap(agent);
    let left = MOST_LOOKED_AT, before = new Map();
    for (const [row, { line, agent: actor }] of trace.rows.entries()) {
      if (actor !== agent) continue;
      heap.apply(line);
      if (IDLE.has(line.event)) continue;
      left -= heap.things.size + heap.variables.size;
      if (left < 0) return;
      const after = distances(heap);
      for (const identity of before.keys()) if (!after.has(identity)) this.lose(identity, row);
      before = after;
    }
  }

  lose(identity, row) {
    if (!this.rows.has(identity)) this.rows.set(identity, []);
    this.rows.get(identity).push(row);
  }

  /** The newest row up to this one after which nothing led to a value; undefined where that is not known. */
  since(identity, row) {
    return this.rows.get(identity)?.findLast((one) => one <= row);
  }
}
