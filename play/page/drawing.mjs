// The picture of a heap, as SVG: roots on the left, then the values by columns.

import { clipped, placedLabels } from "./labels.mjs";

const SVG = "http://www.w3.org/2000/svg";
const BOX = { width: 120, height: 36 };
const ROOT = { width: 100, height: 24 };
const ROW = 50;
const MARGIN = 14;
/** The room to the right of the values, for lines that go beside them. */
const BESIDE = 56;
/** The room between two columns, at least and at most. */
const GAP = { least: 60, most: 110 };
/** The letters of a name that have room: of a root's, and of a property's. */
const MOST_LETTERS = 12;
/** No picture is made smaller than this, where it was not asked to fit: its smallest letters have 9 pixels then. */
const SMALLEST = 0.8;

/** Draws a graph by a layout, so wide and high if that can be read, so large (`zoom`), or as large as it fits (`"fit"`). `lit` are
    the keys of nodes that are to stand out, and of edges as `FROM TO`; `touched` are those of nodes that the step is about; `nameOf`
    gives the name of a value by its number, and `said` the words of the nodes. If a node is `chosen`, what is neither lit nor beside
    it steps back. */
export function drawingOf({ nodes, edges }, layout, { width, height, zoom }, { lit, touched, chosen, nameOf, said }) {
  for (const { shape, key } of nodes) if (shape !== "point") layout.placeOf(key);
  const gap = gapOf(layout.columns, width);
  const placed = nodes.filter(({ shape }) => shape !== "point");
  const spots = new Map(placed.map((node) => [node.key, spotOf(node, layout.placeOf(node.key), gap)]));
  placePoints(nodes, spots);
  // The picture ends where what is drawn now ends. It is as large as the whole run's can be read, so that no step changes that.
  const size = sizeOf(spots), whole = { width: right(layout.columns - 1, gap) + BESIDE, height: 2 * MARGIN + layout.rows * ROW };
  const fits = ({ width: wide, height: high }) => [width / wide, height / high];
  const scale = zoom === "fit" ? Math.min(1, ...fits(size)) : zoom ?? scaleOf(...fits(whole));
  const picture = element("svg", {
    width: Math.floor(size.width * scale), height: Math.floor(size.height * scale), viewBox: `0 0 ${size.width} ${size.height}`,
    "data-scale": scale,
  });
  const isLit = ({ from, to, kind }) => kind !== "weak" && lit.has(`${from} ${to}`);
  const near = chosen === null ? null : besides(chosen, nodes, edges, lit);
  const drawn = [...joined(edges)].map((edge) => ({ ...edge, isLit: isLit(edge), isDim: near !== null && !(near.has(edge.from) && near.has(edge.to)) }));
  for (const edge of drawn) edge.curve = curveOf(spots.get(edge.from), spots.get(edge.to));
  picture.append(heads(), ...drawn.map(lineOf));
  for (const node of nodes) {
    const marks = { lit: lit.has(node.key), touched: touched.has(node.key), dim: near !== null && !near.has(node.key) };
    picture.append(nodeOf({ ...node, said: said.get(node.key), name: nameOf(node.identity) }, spots.get(node.key), marks));
  }
  picture.append(...placedLabels(drawn, [...spots.values(), ...besidePoints(nodes, spots)], size).map(labelOf));
  return picture;
}

/** The keys of the nodes that stand out with a chosen one: those beside it, and beside the points there. */
function besides(chosen, nodes, edges, lit) {
  const found = new Set([chosen, ...lit]);
  const points = new Set(nodes.filter(({ shape }) => shape === "point").map(({ key }) => key));
  const add = (key) => edges.forEach(({ from, to }) => {
    if (from === key) found.add(to);
    if (to === key) found.add(from);
  });
  add(chosen);
  for (const key of [...found]) if (points.has(key)) add(key);
  return found;
}

/** A picture that fits at no scale fits in its width at least, if it can. */
function scaleOf(byWidth, byHeight) {
  const whole = Math.min(1, byWidth, byHeight);
  return whole >= SMALLEST ? whole : Math.min(1, Math.max(SMALLEST, byWidth));
}

function element(name, attributes, ...parts) {
  const made = document.createElementNS(SVG, name);
  for (const [attribute, value] of Object.entries(attributes)) made.setAttribute(attribute, value);
  made.append(...parts);
  return made;
}

// Places

function gapOf(columns, width) {
  const left = width - 2 * MARGIN - ROOT.width - (columns - 1) * BOX.width - 24;
  return Math.min(GAP.most, Math.max(GAP.least, left / Math.max(1, columns - 1)));
}

const leftOf = (column, gap) => (column === 0 ? MARGIN : MARGIN + ROOT.width + gap + (column - 1) * (BOX.width + gap));
const right = (column, gap) => leftOf(column, gap) + (column === 0 ? ROOT.width : BOX.width);

function spotOf({ shape }, { column, row }, gap) {
  const { width, height } = shape === "root" ? ROOT : BOX;
  return { x: leftOf(column, gap) + width / 2, y: MARGIN + row * ROW + ROW / 2, width, height };
}

/** The room that is taken, with what lines and labels need beside it. */
function sizeOf(spots) {
  const all = [...spots.values()], most = (end) => Math.ceil(Math.max(...all.map(end)));
  return { width: most(({ x, width }) => x + width / 2) + BESIDE, height: most(({ y }) => y) + ROW / 2 + MARGIN };
}

/** The point of an entry stands to the right of its WeakMap and its key, between them; no two on one spot. */
function placePoints(nodes, spots) {
  const taken = [];
  for (const { key, weakmap, under, shape } of nodes) {
    if (shape !== "point") continue;
    const one = spots.get(weakmap), other = spots.get(under);
    const x = Math.max(one.x, other.x) + BOX.width / 2 + 22;
    let y = (one.y + other.y) / 2 + (one.y === other.y ? BOX.height / 2 + 6 : 0);
    while (taken.some((spot) => spot.x === x && Math.abs(spot.y - y) < 12)) y += 13;
    const spot = { x, y, width: 6, height: 6 };
    taken.push(spot);
    spots.set(key, spot);
  }
}

/** The room of what is written beside points. */
function besidePoints(nodes, spots) {
  return nodes.filter(({ shape, label }) => shape === "point" && label !== "").map(({ key, label }) => {
    const { x, y } = spots.get(key), width = 7 * Math.min(label.length, MOST_LETTERS);
    return { x: x + 8 + width / 2, y, width, height: 14 };
  });
}

// Edges

/** Edges of one kind between the same two nodes are one, with all their labels. */
function joined(edges) {
  const found = new Map();
  for (const edge of edges) {
    const key = `${edge.from} ${edge.to} ${edge.kind}`;
    if (!found.has(key)) found.set(key, { ...edge, labels: [] });
    if (edge.label !== "") found.get(key).labels.push(edge.label);
  }
  return found.values();
}

function lineOf({ from, to, kind, curve, isLit, isDim }) {
  const group = { "class": `edge ${kind}${isLit ? " lit" : ""}${isDim ? " dim" : ""}`, "data-from": from, "data-to": to };
  const head = kind === "part" || kind === "key" ? {} : { "marker-end": `url(#head-${isLit ? "lit" : kind})` };
  return element("g", group, element("path", { d: pathOf(curve), ...head }));
}

function labelOf({ from, to, kind, isDim, text, all, x, y }) {
  const group = { "class": `edge label ${kind}${isDim ? " dim" : ""}`, "data-of": `${from} ${to}` };
  return element("g", group, element("title", {}, all), element("text", { x, y, "text-anchor": "middle" }, text));
}

/** The four points of a curve between two nodes: to the right it goes from side to side, and past what stands between in a
    bow; within a column it goes beside the column; and to the left it goes back. */
function curveOf(from, to) {
  // Edges to the left leave and come below the others.
  const side = (spot, sign, off = 0) => ({ x: spot.x + sign * spot.width / 2, y: spot.y + Math.min(off, spot.height / 4) });
  const bowed = (start, end, dx, dy = 0) => [start, { x: start.x + dx, y: start.y + dy }, { x: end.x - dx, y: end.y + dy }, end];
  const ahead = (to.x - to.width / 2) - (from.x + from.width / 2);
  if (from === to) {
    const start = { x: from.x - 14, y: from.y - from.height / 2 }, end = { x: from.x + 14, y: from.y - from.height / 2 };
    return [start, { x: start.x - 8, y: start.y - 26 }, { x: end.x + 8, y: end.y - 26 }, end];
  }
  if (ahead > 0) {
    const isPast = ahead > BOX.width && Math.abs(from.y - to.y) < 1;
    return bowed(side(from, 1), side(to, -1), ahead / 2, isPast ? -ROW * 0.8 : 0);
  }
  if (from.x - from.width / 2 > to.x + to.width / 2) {
    return bowed(side(from, -1, 8), side(to, 1, 8), -Math.max(24, (from.x - to.x) / 4), 4);
  }
  const sign = from.y < to.y ? 1 : -1, out = sign * (24 + Math.min(24, Math.abs(from.y - to.y) / 8));
  const start = side(from, sign), end = side(to, sign);
  return [start, { x: start.x + out, y: start.y }, { x: end.x + out, y: end.y }, end];
}

const pathOf = ([one, two, three, four]) => `M${one.x} ${one.y}C${two.x} ${two.y} ${three.x} ${three.y} ${four.x} ${four.y}`;

/** The heads of arrows. */
function heads() {
  const head = (kind) => element("marker", {
    id: `head-${kind}`, viewBox: "0 0 8 8", refX: 7.5, refY: 4, markerWidth: 9, markerHeight: 9,
    markerUnits: "userSpaceOnUse", orient: "auto", "class": `head ${kind}`,
  }, element("path", { d: "M0 0.5L8 4L0 7.5Z" }));
  return element("defs", {}, head("strong"), head("weak"), head("lit"));
}

// Nodes

/** A node; `marks` says of some classes whether it has them. */
function nodeOf(node, spot, marks) {
  const draw = { root: rootOf, thing: thingOf, point: pointOf }[node.shape];
  const group = draw(node, spot);
  for (const [mark, has] of Object.entries(marks)) group.classList.toggle(mark, has);
  return group;
}

function rootOf({ key, label, title, identity, said }, { x, y, width, height }) {
  const held = identity === undefined ? { role: "img" } : { "data-identity": identity, role: "button" };
  return element("g", { "class": "node root", "data-key": key, tabindex: 0, "aria-label": said.label, ...held },
    element("title", {}, title),
    element("rect", { x: x - width / 2, y: y - height / 2, width, height, rx: height / 2 }),
    element("text", { x, y: y + 4, "text-anchor": "middle" }, clipped(label, MOST_LETTERS)));
}

function thingOf({ key, identity, kind, block, isGone, distance, said, name }, { x, y, width, height }) {
  const state = isGone ? " gone" : distance === null ? " lost" : "";
  const more = [block === null ? null : `block ${block}`, name].filter(Boolean).join(", ");
  return element("g", {
    "class": `node thing ${kind.toLowerCase()}${state}`, "data-key": key, "data-identity": identity, tabindex: 0, role: "button",
    "aria-label": said.label,
  },
    element("title", {}, said.begun),
    element("rect", { x: x - width / 2, y: y - height / 2, width, height, rx: 6 }),
    element("text", { x, y: y - 4, "text-anchor": "middle", "class": "kind" }, kind),
    element("text", { x, y: y + 12, "text-anchor": "middle", "class": "number" },
      String(identity), ...(more === "" ? [] : [element("tspan", {}, ` ${clipped(more, MOST_LETTERS)}`)])));
}

function pointOf({ key, label }, { x, y }) {
  const point = element("g", { "class": "node point", "data-key": key }, element("circle", { cx: x, cy: y, r: 3.5 }));
  if (label !== "") point.append(element("text", { x: x + 8, y: y + 4 }, clipped(label, MOST_LETTERS)));
  return point;
}
