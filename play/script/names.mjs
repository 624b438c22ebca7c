// The names of a plan's variables: those of the script's variables, and those of temporaries, which are used again and again.

import { nameLike } from "./keys.mjs";

export class Names {
  #used = new Set(["held"]);
  #pool = { prefix: "_", made: 0, free: [] };

  /** A name that nothing else uses, as in the script if it can be. */
  variable(wish) {
    const like = nameLike(wish);
    const base = /^_c?\d/.test(like) ? `v${like}` : like;
    let name = base;
    for (let number = 2; this.#used.has(name); number += 1) name = `${base}_${number}`;
    this.#used.add(name);
    return name;
  }

  release(name) {
    this.#used.delete(name);
  }

  temporary() {
    return this.#pool.free.pop() ?? `${this.#pool.prefix}${(this.#pool.made += 1)}`;
  }

  /** Temporaries that may be used again: the first ones first. */
  releaseTemporaries(names) {
    if (names.length === 0) return;
    this.#pool.free.push(...names);
    this.#pool.free.sort((one, other) => other.length - one.length || (one < other ? 1 : -1));
  }

  /** A callback has temporaries of its own, so that they are the same at each call. Gives what ends that. */
  apart() {
    const kept = this.#pool;
    this.#pool = { prefix: "_c", made: 0, free: [] };
    return () => void (this.#pool = kept);
  }
}
