// Where the labels of edges stand in a picture: on their curves, and none on a node or on another label.

/** The letters of a label that have room, and how much a letter takes, in pixels. */
const MOST_OF_LABEL = 16;
const LETTER = 6.9;
const HEIGHT = 13;
/** The parts of a curve at which a label may stand, the best first. */
const PARTS = [0.5, 0.4, 0.6, 0.3, 0.7, 0.22, 0.78];
/** How far beside the curve, in pixels; the last two are between the rows of nodes. */
const OFFS = [0, 13, -13, -17, 32];

export const clipped = (text, most) => (text.length > most ? `${text.slice(0, most - 1)}…` : text);

/** The labels of edges with their places. What has no room is left out: its edge still tells it. */
export function placedLabels(edges, spots, { width, height }) {
  const taken = spots.map(({ x, y, width: wide, height: high }) => ({ left: x - wide / 2, right: x + wide / 2, top: y - high / 2, bottom: y + high / 2 }));
  const isFree = (box) => box.left >= 0 && box.top >= 0 && box.right <= width && box.bottom <= height && !taken.some((other) => meets(box, other));
  // What stands out has the first choice, and of the others the shortest: a long one has room elsewhere.
  const labelled = edges.filter(({ labels }) => labels.length > 0).sort((one, other) => one.isDim - other.isDim || spanOf(one) - spanOf(other));
  return labelled.flatMap((edge) => {
    const all = edge.labels.join(", "), text = clipped(all, MOST_OF_LABEL);
    const place = places(edge.curve).find((one) => isFree(boxOf(one, text)));
    if (place === undefined) return [];
    taken.push(boxOf(place, text));
    return [{ ...edge, ...place, all, text }];
  });
}

/** How far the ends of an edge are from each other. */
const spanOf = ({ curve: [start, , , end] }) => Math.hypot(end.x - start.x, end.y - start.y);

function* placesOn(curve) {
  const isBack = curve[0].x > curve[3].x;
  for (const off of OFFS) {
    for (const part of PARTS) {
      const { x, y } = pointAt(curve, part);
      yield { x, y: (isBack ? y + 12 : y - 4) + off };
    }
  }
}

const places = (curve) => [...placesOn(curve)];

/** The room of a label whose text begins and ends at the middle. */
function boxOf({ x, y }, text) {
  const half = (text.length * LETTER) / 2;
  return { left: x - half, right: x + half, top: y - HEIGHT + 3, bottom: y + 3 };
}

const meets = (one, other) => one.left < other.right && other.left < one.right && one.top < other.bottom && other.top < one.bottom;

/** The point of a curve (of Bézier) at a part of it. */
function pointAt([one, two, three, four], part) {
  const left = 1 - part;
  const at = (axis) => left ** 3 * one[axis] + 3 * left ** 2 * part * two[axis] + 3 * left * part ** 2 * three[axis] + part ** 3 * four[axis];
  return { x: at("x"), y: at("y") };
}
