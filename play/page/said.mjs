// A picture in words, for who hears it: of each node what it is, what holds it, and what it leads to.

/** The words of the nodes, by their keys; `told` says what a value is called. `label` is all of a node, `led` what it leads to. */
export function saidOf(nodes, edges, told) {
  const points = new Map(nodes.filter(({ shape }) => shape === "point").map((node) => [node.key, node]));
  const byKey = new Map(nodes.map((node) => [node.key, node]));
  const called = (key) => nameOf(byKey.get(key), told);
  const said = new Map(nodes.map((node) => [node.key, { begun: begun(node, told), held: [], led: [] }]));
  for (const edge of edges) {
    if (edge.kind === "part" || edge.kind === "key") continue;
    const point = points.get(edge.from);
    const from = point ? `the entry of ${called(point.weakmap)} under ${called(point.under)}` : called(edge.from);
    said.get(edge.to)?.held.push(edge.kind === "weak" ? `seen weakly by ${from}` : `held by ${point ? from : fromWhere(edge, from)}`);
    if (!point) said.get(edge.from)?.led.push(`${verb(edge, byKey.get(edge.from))} ${called(edge.to)}`);
  }
  for (const { key, weakmap, under, label } of points.values()) {
    const value = edges.find(({ from, kind }) => from === key && kind === "strong");
    said.get(weakmap)?.led.push(`has an entry under ${called(under)} with ${value ? called(value.to) : label}`);
  }
  return new Map([...said].map(([key, { begun: first, held, led }]) => [key, { begun: first, led, label: [first, ...held, ...led].join(", ") }]));
}

/** The picture as lines: each root and each value with what it leads to. */
export function linesOf(nodes, said) {
  return nodes.filter(({ shape }) => shape !== "point").map(({ key }) => {
    const { begun: first, led } = said.get(key);
    return `${first}: ${led.length === 0 ? "leads to nothing" : led.join("; ")}`;
  });
}

function nameOf({ shape, label, identity }, told) {
  return shape === "thing" ? told(identity) : label;
}

function begun(node, told) {
  if (node.shape === "root") return node.title;
  const state = node.isGone ? ", emptied" : node.distance === null ? ", no longer reached" : "";
  return `${nameOf(node, told)}${state}`;
}

/** Where a value is held: of a registration its number, of an object the property. */
function fromWhere({ label }, from) {
  const [, registration] = label.match(/^held (\d+)$/) ?? [];
  if (registration !== undefined) return `registration ${registration} of ${from}`;
  return label === "" ? from : `property ${label} of ${from}`;
}

/** How an edge is said from where it begins. */
function verb({ kind, label }, { kind: of }) {
  const [, what, number] = label.match(/^(held|registration|token) (\d+)$/) ?? [];
  if (what === "held") return `registration ${number} holds`;
  if (what !== undefined) return `registration ${number} sees weakly its ${what === "token" ? "token" : "target"}`;
  if (kind === "weak") return `sees weakly its ${of === "WeakSet" ? "member" : "target"}`;
  return label === "" ? "holds" : `property ${label} holds`;
}
