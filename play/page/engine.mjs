// The engine in a thread of its own, so that the page answers while a plan runs, and a run can be stopped.

/** The bytes that a call may take: 4 GiB, or half of what a smaller machine has, where the browser tells that. */
const MEMORY = Math.min(4, (navigator.deviceMemory ?? 8) / 2) * 2 ** 30;

export class Engine {
  /** `source` is the text of the thread's script. It is no module, as a page from a disk may start none. */
  constructor(source) {
    this.address = URL.createObjectURL(new Blob([source], { type: "text/javascript" }));
    this.asked = 0;
    this.begin();
  }

  begin() {
    this.waiting = new Map();
    this.failure = null;
    this.worker = new Worker(this.address);
    this.worker.addEventListener("message", ({ data }) => {
      this.waiting.get(data.number)?.(data);
      this.waiting.delete(data.number);
    });
    this.worker.addEventListener("error", (event) => this.fail(event.message || "the engine could not begin"));
  }

  /** Asks for `run`, `check` or `trace` of a plan, or for `script` of a script. Gives the answer and how many milliseconds it took, or why there is none,
      as `failure`. */
  ask(call, text, options = {}) {
    const number = ++this.asked;
    if (this.failure !== null) return Promise.resolve({ failure: this.failure });
    return new Promise((give) => {
      this.waiting.set(number, give);
      this.worker.postMessage({ number, call, text, options: { memory: MEMORY, ...options } });
    });
  }

  /** Ends what is asked for, which is never answered then, and begins anew. */
  stop() {
    this.worker.terminate();
    this.begin();
  }

  /** The thread could not begin: it answers nothing any more. */
  fail(failure) {
    this.failure = failure;
    for (const give of this.waiting.values()) give({ failure });
    this.waiting.clear();
  }
}
