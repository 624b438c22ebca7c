// What the values of an agent are called: each by its kind, its number, and the variable or property under which it was made.

/** The names of an agent's values. Rows are told by their numbers in the trace. */
export class Names {
  /** `kinds` has the kind of each value by its number; `hides` says of a variable that it is not told. */
  constructor(kinds, hides) {
    Object.assign(this, { kinds, hides });
    /** By the number of a value the place that had it first: a variable, or a property of an object. */
    this.births = new Map();
    /** What these places had, by their keys: rows, each with the number of the value from then on. */
    this.held = new Map();
    /** The values that were emptied, each with the row of it. */
    this.gone = new Map();
  }

  assign(variable, identity, row) {
    if (!this.hides(variable)) this.put(variable, variable, identity, row);
  }

  setProperty(object, property, identity, row) {
    this.put(`${object} ${property}`, property, identity, row);
  }

  /** A place has a value from a row on; null if it is none that has a number. */
  put(key, name, identity, row) {
    if (identity !== null && !this.births.has(identity)) {
      this.births.set(identity, { key, name });
      if (!this.held.has(key)) this.held.set(key, []);
    }
    this.held.get(key)?.push([row, identity]);
  }

  empty(identities, row) {
    for (const identity of identities) this.gone.set(identity, row);
  }

  /** The name alone; undefined where a value has none. */
  nameOf(identity) {
    return this.births.get(identity)?.name;
  }

  /** A value as it is told after a row: `WeakRef 2 (w)`, and `object 3 (made as lost)` where this name no longer holds it. The
      name is left out where it is `known`. */
  told(identity, row, known = null) {
    const numbered = `${this.kinds.get(identity) ?? "value"} ${identity}`, birth = this.births.get(identity);
    if (birth === undefined) return numbered;
    if (!this.keeps(birth.key, identity, row)) return `${numbered} (made as ${birth.name})`;
    return birth.name === known ? numbered : `${numbered} (${birth.name})`;
  }

  /** Whether a place has a value after a row, or has it later for the first time. */
  keeps(key, identity, row) {
    const had = this.had(key, row);
    return had === null || (had === identity && !(this.gone.get(identity) <= row));
  }

  /** The number of what a place has after a row: null before it had any, and 0 if that has no number. */
  had(key, row) {
    const changes = this.held.get(key);
    let low = 0, high = changes.length;
    while (low < high) {
      const middle = (low + high) >> 1;
      if (changes[middle][0] <= row) low = middle + 1;
      else high = middle;
    }
    return low === 0 ? null : changes[low - 1][1] ?? 0;
  }
}
