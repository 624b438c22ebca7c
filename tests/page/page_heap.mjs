// What the page makes of the lines of a trace: it reads a plan and its lines, each after its length in four bytes, from
// standard input, and answers with a line of JSON: the words of each row with the letters of its command, the rows of the list
// without the ledger's, and after each collection the nodes and the edges of the picture, with how far each value is from the
// roots, its kind, and its block, and all that leads to each value.
//
// Usage: node page_heap.mjs

import { graphOf } from "../../play/page/graph.mjs";
import { readJson } from "../../play/page/json.mjs";
import { leadingTo } from "../../play/page/leading.mjs";
import { commandIn } from "../../play/page/places.mjs";
import { Trace } from "../../play/page/replay.mjs";
import { rowsOf } from "../../play/page/steps_of.mjs";
import { Telling } from "../../play/page/telling.mjs";
import { wordsOf } from "../../play/page/words.mjs";
import { read, write } from "./page_pipe.mjs";

function pictureOf({ nodes, edges }) {
  return {
    nodes: nodes.map(({ key, kind = null, isGone = false, distance = null, block = null }) => [key, isGone ? null : kind, distance, block]),
    edges: edges.map(({ from, to, kind, label }) => [from, to, kind, label]),
  };
}

/** The edges into each value, by its number: what each is, and by which numbers and names. */
function leading(heap) {
  const edge = ({ kind, variable, number, property, from, object }) => {
    const parts = { variable: [variable], held: [number], registered: [number], token: [number], property: [object, property], entry: from };
    return [kind, ...(parts[kind] ?? from)];
  };
  return Object.fromEntries([...heap.things.keys()].map((identity) => [identity, leadingTo(heap, identity).map(edge)]));
}

/** The rows of the list, as they stand in the page. */
function listed(trace) {
  const rows = [];
  const telling = new Telling(trace, (event) => {
    const number = rows.findIndex(({ row }) => row === event);
    return `row ${number + 1} (${clipped(rows[number].words.event)})`;
  });
  rows.push(...rowsOf(telling).filter(({ kind }) => kind !== "ledger").flatMap((row) => [row, ...row.notes]));
  return rows.map(({ agent, words }) => [agent, words.event, words.answer]);
}

const clipped = (text) => (text.length > 40 ? `${text.slice(0, 39)}…` : text);

function answer(plan, text) {
  const trace = new Trace(text, plan);
  const heaps = new Map(trace.agents.map(({ name }) => [name, trace.heap(name)]));
  const pictures = [];
  for (const { line, agent, kept } of trace.rows) {
    heaps.get(agent)?.apply(line);
    if (kept) pictures.push({ ...pictureOf(graphOf(heaps.get(agent))), leading: leading(heaps.get(agent)) });
  }
  const { value } = readJson(plan);
  const letters = (place) => place && plan.slice(commandIn(value, place).start, commandIn(value, place).end);
  const rows = trace.rows.map(({ line, agent, place }) => [agent ?? "-", ...Object.values(wordsOf(line)), letters(place)]);
  return { rows, pictures, listed: listed(trace) };
}

for (let head = read(4); head !== null; head = read(4)) {
  const plan = read(head.readUInt32LE(0)).toString();
  const text = read(read(4).readUInt32LE(0)).toString();
  write(`${JSON.stringify(answer(plan, text))}\n`);
}
