// A bar between two parts that can be moved, by the pointer and by the arrows. A double press puts it back.

const LEAST = 15;
const MOST = 85;
const STEP = 5;

/** Moves a bar in a box: `property` of the box's style says how much of it, in percent, the first part has. */
export function split(bar, box, property) {
  const isAcross = () => getComputedStyle(bar).cursor === "row-resize";
  const put = (share) => {
    const within = Math.min(MOST, Math.max(LEAST, share));
    box.style.setProperty(property, `${within}%`);
    bar.ariaValueNow = Math.round(within);
  };
  const shareOf = ({ clientX, clientY }) => {
    const { left, top, width, height } = box.getBoundingClientRect();
    return 100 * (isAcross() ? (clientY - top) / height : (clientX - left) / width);
  };
  const now = () => {
    const { left, top, width, height } = bar.getBoundingClientRect();
    return shareOf({ clientX: left + width / 2, clientY: top + height / 2 });
  };
  bar.addEventListener("pointerdown", (event) => bar.setPointerCapture(event.pointerId));
  bar.addEventListener("pointermove", (event) => { if (bar.hasPointerCapture(event.pointerId)) put(shareOf(event)); });
  bar.addEventListener("dblclick", () => box.style.removeProperty(property));
  bar.addEventListener("keydown", (event) => {
    const by = { ArrowLeft: -STEP, ArrowUp: -STEP, ArrowRight: STEP, ArrowDown: STEP }[event.key];
    if (by === undefined) return;
    put(now() + by);
    event.preventDefault();
  });
}
