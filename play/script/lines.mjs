// A trace beside its script: from which place of the script each command comes, and the lines that console.log wrote.

/** How far an agent is in its plan: in which job or callback, and how many of its commands came. */
class Progress {
  #callbacks = new Map();
  #registry = 0;
  #places = [];
  #count = 0;

  constructor(places) {
    this.places = places;
  }

  /** The place of a line's command; null where it has none. */
  placeOf({ event, job, registry, command, answer }) {
    if (event === "job") this.#begin(this.places.jobs[job - 1]);
    if (event === "cleanup job") this.#registry = registry;
    if (event === "taken") this.#begin(this.places.callbacks[this.#callbacks.get(this.#registry)]);
    if (event === "did" && command[0] === "registry") this.#callbacks.set(answer.gives.object, command[2]);
    return command ? this.#places[this.#count++] : null;
  }

  #begin(places) {
    this.#places = places;
    this.#count = 0;
  }
}

/** Each line of a trace, with the place in the script of its command. */
export function* placed(trace, places) {
  const agents = new Map(places.map((one) => [one.name, new Progress(one)]));
  for (const text of trace.split("\n")) {
    if (text === "") continue;
    const line = JSON.parse(text);
    yield { line, place: line.event ? agents.get(line.agent).placeOf(line) : null };
  }
}

/** A value of a trace as console.log writes it. */
function written(value) {
  if (value === null) return "undefined";
  const [kind] = Object.keys(Object(value));
  return typeof value === "object" ? (kind === "symbolfor" ? `Symbol(${value.symbolfor})` : `${kind} ${value[kind]}`) : String(value);
}

/** The lines that a script wrote, in the order of the run: of each the agent, the text, and the place of its call. A refused
    command is a line too. */
export function linesOf(trace, places) {
  const lines = [];
  const open = new Map();
  for (const { line, place } of placed(trace, places)) {
    if (line.event === "refused") {
      lines.push({ agent: line.agent, text: `Uncaught ${line.error}`, start: place?.start, end: place?.end });
    }
    if (!place?.say || line.event !== "did") continue;
    if (place.say.opens) open.set(line.agent, { agent: line.agent, text: "", start: place.start, end: place.end });
    open.get(line.agent).text += place.say.shown ?? written(line.values[0]);
    if (place.say.closes) lines.push(open.get(line.agent));
  }
  return lines;
}
