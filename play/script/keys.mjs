// How the key of a property is spelled in a plan. A script has any text, symbols, indices and private names as keys; a plan has
// names of 32 letters, digits and `_`. Each key of a script gets a name of its own, which stays its name.

import { PrivateName, Sym, Thing } from "./values.mjs";

const MOST_LETTERS = 32;
/** What objects of some kinds hold beside their properties: a property of such a name gets another. */
const BESIDE = {
  function: /^(scope|this|parent|promise|bound_\d+)$/, environment: /^outer$/, promise: /^(value|values|reaction_\d+)$/,
  registry: /^(callback|registration_\d+)$/, iterator: /^source$/,
};
const ON_ALL = /^prototype$/;

/** A text that may stand as a name in a plan, and looks like the given one. */
export function nameLike(text) {
  const letters = text.replace(/[^A-Za-z0-9_]/g, "_").slice(0, MOST_LETTERS - 6);
  return /^[A-Za-z_]/.test(letters) ? letters : `_${letters}`;
}

export class Keys {
  #properties = new Map();
  #apart = new Map();
  #entries = new Map();
  #taken = new Set();

  /** The name of a property's key, on an object of some kind. */
  property(key, kind) {
    if (!this.#properties.has(key)) this.#properties.set(key, this.#fresh(wished(key)));
    const name = this.#properties.get(key);
    if (!BESIDE[kind]?.test(name) && !ON_ALL.test(name)) return name;
    if (!this.#apart.has(key)) this.#apart.set(key, this.#fresh(`own_${name}`));
    return this.#apart.get(key);
  }

  /** The names of what a Map or a Set has under a key: of the key itself, and of its value. */
  entry(key) {
    if (!this.#entries.has(key)) {
      const wish = key instanceof Thing ? `value_${key.number}` : wished(String(key instanceof Sym ? key.description : key));
      this.#entries.set(key, { key: this.#fresh(nameLike(`key_${key?.number ?? wish}`)), value: this.#fresh(wish) });
    }
    return this.#entries.get(key);
  }

  #fresh(wish) {
    let name = wish;
    for (let number = 2; this.#taken.has(name); number += 1) name = `${wish.slice(0, MOST_LETTERS - 7)}_${number}`;
    this.#taken.add(name);
    return name;
  }
}

function wished(key) {
  if (key instanceof PrivateName) return nameLike(`private_${key.name}`);
  if (key instanceof Sym) return nameLike(`symbol_${key.description ?? ""}`);
  if (/^(0|[1-9]\d*)$/.test(key)) return `i${key}`.slice(0, MOST_LETTERS);
  return /^[A-Za-z_]\w{0,31}$/.test(key) ? key : nameLike(`_${key}`);
}
