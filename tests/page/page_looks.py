"""How the page looks, as far as numbers say it: the contrast of its texts and lines, texts of pictures that lie on each other or
that leave their boxes, and what is cut or stands outside of the window."""

# What the tests call in the page, beside the tools of page_browser.py.
TOOLS = """
const numbersOf = (color) => color.match(/[\\d.]+/g).map(Number);
const over = (above, below) => {
  const [r, g, b, alpha = 1] = above;
  return [r, g, b].map((one, at) => one * alpha + below[at] * (1 - alpha));
};
const light = (color) => {
  const [r, g, b] = color.map((one) => (one / 255 <= 0.04045 ? one / 255 / 12.92 : ((one / 255 + 0.055) / 1.055) ** 2.4));
  return 0.2126 * r + 0.7152 * g + 0.0722 * b;
};
const contrast = (one, other) => {
  const [low, high] = [light(one), light(other)].sort((left, right) => left - right);
  return (high + 0.05) / (low + 0.05);
};
// What is painted behind an element, in a picture the box of its node.
const behind = (element) => {
  const box = element.closest(".node")?.querySelector("rect");
  const fill = box && getComputedStyle(box).fill;
  if (fill && fill !== "none" && element !== box) return over(numbersOf(fill), behind(element.closest("svg")));
  for (let one = element; one; one = one.parentElement) {
    const ground = numbersOf(getComputedStyle(one).backgroundColor);
    if ((ground[3] ?? 1) === 1) return ground.slice(0, 3);
    if (ground[3] > 0) return over(ground, behind(one.parentElement));
  }
  return [255, 255, 255];
};
const opacityOf = (element) => {
  let opacity = 1;
  for (let one = element; one; one = one.parentElement) opacity *= Number(getComputedStyle(one).opacity);
  return opacity;
};
const contrastOf = (element) => {
  const style = getComputedStyle(element), ground = behind(element);
  const ink = numbersOf(element.closest("svg") ? style.fill : style.color);
  return contrast(over([...ink.slice(0, 3), (ink[3] ?? 1) * opacityOf(element)], ground), ground);
};
const hasText = (element) => [...element.childNodes].some((part) => part.nodeType === 3 && part.data.trim() !== "");
const isSeen = (element) => element.getClientRects().length > 0 && element.tagName !== "title" && !element.closest("#marks, option");
// The texts that are seen, of which the contrast is lower than that.
const pale = (least) => {
  const texts = [...document.querySelectorAll("body *")].filter((it) => hasText(it) && isSeen(it));
  const found = texts.map((it) => [contrastOf(it), `${it.tagName} ${it.closest("[class],[id]")?.className.baseVal ?? it.className} ${it.textContent.slice(0, 30)}`]);
  return { count: texts.length, pale: found.filter(([value]) => value < least).map(([value, what]) => `${value.toFixed(2)} ${what}`) };
};
// The lines of the picture, without what has stepped back, of which the contrast is lower than that.
const thin = (least) => {
  const lines = [...document.querySelectorAll("#heap .edge:not(.dim) path, #heap .thing:not(.dim) rect")];
  const found = lines.map((it) => [contrast(numbersOf(getComputedStyle(it).stroke).slice(0, 3), behind(it.closest("svg"))), it.parentElement.className.baseVal]);
  return [...new Set(found.filter(([value]) => value < least).map(([value, what]) => `${value.toFixed(2)} ${what}`))];
};
// The ink of the editor on what marks a place in it.
const marked = () => {
  const root = getComputedStyle(at("plan")), ink = numbersOf(root.color).slice(0, 3);
  return ["fault", "step", "warned", "step warned"].map((kind) => {
    const mark = Object.assign(document.createElement("mark"), { className: kind });
    at("marks").append(mark);
    const value = contrast(ink, numbersOf(getComputedStyle(mark).backgroundColor).slice(0, 3));
    mark.remove();
    return value;
  });
};
// The room of a part of the picture, without the edge of letters, which some browsers count.
const room = (it) => {
  const { x, y, width, height } = it.getBBox(), { a, e, f } = it.getScreenCTM();
  return { left: a * x + e, right: a * (x + width) + e, top: a * y + f, bottom: a * (y + height) + f };
};
// The labels of edges, and what is written beside points, that lie on another one or on a node.
const covered = () => {
  const labels = [...document.querySelectorAll("#heap .label text, #heap .point text")], boxes = [...document.querySelectorAll("#heap .node rect")];
  const meets = (one, other) => one.left < other.right - 1 && other.left < one.right - 1 && one.top < other.bottom - 2 && other.top < one.bottom - 2;
  const on = labels.filter((it, place) => [...labels.slice(place + 1), ...boxes].some((other) => meets(room(it), room(other))));
  return { labels: labels.length, covered: on.map((it) => it.textContent) };
};
// The texts of values and roots that are wider than their boxes.
const bursting = () => {
  const bursts = (node) => [...node.querySelectorAll("text")].some((text) => {
    const inside = room(text), outside = room(node.querySelector("rect"));
    return inside.left < outside.left || inside.right > outside.right;
  });
  return [...document.querySelectorAll("#heap .node:not(.point)")].filter(bursts).map((it) => it.textContent);
};
// What may be longer than its place: it scrolls, or is told in full elsewhere.
const SCROLLS = "#rows, #heap, .editor, #offers, .said, .warning ol, .heard, #report, #printed, #planned, dialog";
// The texts that are cut, or that stand outside of the window; the page itself may scroll down where it is narrow.
const cut = () => {
  const page = { left: 0, top: 0, right: innerWidth, bottom: Math.max(innerHeight, document.body.getBoundingClientRect().bottom + scrollY) };
  const leaves = (one, other) => one.left < other.left - 1 || one.right > other.right + 1 || one.top < other.top - 1 || one.bottom > other.bottom + 1;
  const found = [...document.querySelectorAll("body *")].filter((it) => hasText(it) && isSeen(it) && it.checkVisibility() && !it.closest(SCROLLS)).filter((it) => {
    const range = document.createRange();
    range.selectNodeContents(it);
    const { left, right, top, bottom } = range.getBoundingClientRect();
    const place = { left, right, top: top + scrollY, bottom: bottom + scrollY };
    if (leaves(place, page)) return true;
    for (let one = it; one; one = one.parentElement) {
      if (getComputedStyle(one).overflow === "visible" || one === document.body) continue;
      if (leaves({ left, right, top, bottom }, one.getBoundingClientRect())) return true;
    }
    return false;
  });
  return found.map((it) => it.textContent.trim().slice(0, 60));
};
// What of these is not to be seen where it stands: the current row, and the marked letters of what is written.
const unseen = () => [["#rows [aria-selected=true]", "#rows"], ["mark.step", ".paper"]].flatMap(([what, where]) => {
  const one = document.querySelector(what)?.getBoundingClientRect(), place = document.querySelector(where).getBoundingClientRect();
  const isSeen = !one || (one.left >= place.left - 1 && one.left < place.right && one.top >= place.top - 1 && one.bottom <= place.bottom + 1);
  return isSeen ? [] : [what];
});
"""


def dark(browser, is_dark):
    browser.call("Emulation.setEmulatedMedia", features=[{"name": "prefers-color-scheme", "value": "dark" if is_dark else "light"}])


def sized(browser, width, height):
    browser.call("Emulation.setDeviceMetricsOverride", width=width, height=height, deviceScaleFactor=1, mobile=False)
    browser.value("new Promise((go) => setTimeout(go, 60))")


def contrasts(count, browser, what):
    """Of all texts that are seen now, light and dark."""
    for is_dark in (False, True):
        dark(browser, is_dark)
        got = browser.value("pale(4.5)")
        count.expect(f"the contrast of {what}, {'dark' if is_dark else 'light'}, of {got['count']} texts", got["pale"], [])
        count.expect(f"the marks of {what}", browser.value("marked().every((value) => value >= 4.5)"), True)
    dark(browser, False)
