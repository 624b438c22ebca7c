// The heap after each collection of a trace, as graphs in Graphviz's language; docs/TRACES.md says what they show.

import { graphOf } from "../page/graph.mjs";
import { Trace } from "../page/replay.mjs";

/** How each kind is drawn; a plain object is a box. */
const SHAPES = {
  "object": "", "symbol": ",shape=ellipse", "WeakRef": ",style=dashed", "WeakMap": ",shape=cylinder", "WeakSet": ",shape=folder",
  "FinalizationRegistry": ",shape=component", "SharedArrayBuffer": ",shape=box3d",
};
const GONE = ",style=filled,color=gray80,fontcolor=gray40";
const EDGES = { strong: [], weak: ["style=dashed"], part: ["arrowhead=none"], key: ["arrowhead=none", "style=dashed"] };

/** The pictures of a trace of a plan. */
export function picturesOf(trace, plan) {
  const told = new Trace(trace, plan), heaps = new Map(told.agents.map(({ name }) => [name, told.heap(name)]));
  const pictures = [];
  for (const { line, agent } of told.rows) {
    heaps.get(agent)?.apply(line);
    if (line.event === "emptied") pictures.push(picture(agent, heaps.get(agent)));
  }
  return pictures.join("");
}

function picture(agent, heap) {
  const { nodes, edges } = graphOf(heap);
  const lines = [`label="${agent}"`, "labelloc=t", "node [shape=box]", ...nodes.map(node), ...edges.filter(isDrawn).map(edge)];
  return `digraph {\n${lines.map((line) => `  ${line}\n`).join("")}}\n`;
}

/** The name of a node. */
const named = (key) => (key.includes(" ") ? `"${key}"` : key);

function node({ key, shape, label, identity, kind, isGone }) {
  if (shape === "point") return `${key} [shape=point]`;
  if (shape === "root") return `${named(key)} [${key === label ? "" : `label="${label}",`}shape=plaintext]`;
  return isGone ? `${key} [label="emptied ${identity}"${GONE}]` : `${key} [label="${label}"${SHAPES[kind]}]`;
}

/** A token is in no picture. */
const isDrawn = ({ label }) => !label.startsWith("token ");

function edge({ from, to, kind, label }) {
  const marks = [...EDGES[kind], ...(label === "" ? [] : [`label="${label}"`])];
  return `${named(from)} -> ${named(to)}${marks.length === 0 ? "" : ` [${marks.join(",")}]`}`;
}
