// What stands below a row of the list: what KeptAlive takes in, and of each value that a collection emptied since when nothing
// leads there.

/** So many emptied values have a row; of more it is said how many they are. */
const MOST = 100;

const NONE = [];

/** A row below another one, whose commands it shares; it is about some values. Its words are found when it is drawn, as that may
    take long. */
class Note {
  constructor({ agent, row, place }, about, tell) {
    Object.assign(this, { agent, row, from: row, place, about, tell, kind: "note", level: 1, commands: [], notes: [], isOpen: false, may: null, collects: false });
  }

  get words() {
    return this.tell();
  }
}

/** The rows below one that tells a row of the trace. */
export function notesOf(told, telling) {
  const { line, agent, takes } = telling.trace.rows[told.row];
  if (agent === null) return NONE;
  const name = (identity) => telling.trace.told(agent, identity, told.row);
  if (takes !== null) return [new Note(told, [takes], () => ({ event: "KeptAlive takes", answer: name(takes) }))];
  if (line.event !== "emptied") return NONE;
  const { identities } = line, more = identities.length - MOST;
  const notes = identities.slice(0, MOST).map((identity) => new Note(told, [identity], () => gone(name(identity), telling.since(agent, identity, told.row))));
  if (more > 0) notes.push(new Note(told, identities.slice(MOST), () => gone(`${more} more`, null)));
  return notes;
}

const gone = (it, since) => (since === null ? { event: `emptied ${it}`, answer: "" } : { event: `nothing leads to ${it}`, answer: `since ${since}` });
