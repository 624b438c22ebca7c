"""A sketch of the page: its parts, the picture of the heap and their colours, as numbers and words. It is read from a page in a
browser, or from an SVG that is kept and that a person can look at; and two of them are compared.

A sketch has `window`, the width and height of the window; `scale`, how large the picture is drawn; `parts`, `values`, `edges` and
`labels`, each by its name; and `colours`, by `light` and `dark` and by the class that has them."""

import re
import xml.etree.ElementTree as tree
from xml.sax.saxutils import escape, quoteattr

# How far a thing may stand from where it was, in pixels: letters and buttons differ a little from browser to browser.
NEAR = {"parts": 8, "values": 4, "edges": 6, "labels": 6}
SPACE = "{http://www.w3.org/2000/svg}"
# What stands between the lines of a value's words.
BETWEEN = " | "

# What the tests call in the page, beside the tools of page_looks.py.
TOOLS = """
const PARTS = {
  "title": "header", "kind": "#plan-title", "examples": "#open", "share": "#link", "run": "#run", "editor": ".editor", "words": "#offers", "fault": "#fault",
  "steps": "#trace-tab", "report": "#report-tab", "first": "#to-first", "back": "#back", "forward": "#forward", "last": "#to-last",
  "collection": "#to-collection", "ledger": ".switch", "step": "#step", "rows": "#rows", "row": "#row-told", "variables": "#plain", "smaller": "#smaller",
  "fit": "#fit", "larger": "#larger", "enlarge": "#enlarge", "heap": "#heap", "legend": "#legend", "foot": "footer > p", "trusted": "summary",
};
// The words of these are another matter: the foot has the version, and the others what is written, its rows and its heap.
const WITHOUT_WORDS = ["editor", "rows", "heap", "foot"];
const whole = (numbers) => numbers.map(Math.round);
const hex = (color) => "#" + numbersOf(color).slice(0, 3).map((one) => Math.round(one).toString(16).padStart(2, "0")).join("");
const hexOf = (element, property) => hex(getComputedStyle(element)[property]);
const classOf = (element, ...without) => [...element.classList].filter((name) => !without.includes(name)).join(" ");
const sketch = () => {
  const parts = {}, values = {}, edges = {}, labels = {}, colours = {};
  for (const [name, selector] of Object.entries(PARTS)) {
    const part = document.querySelector(selector);
    if (part.getClientRects().length === 0) continue;
    const { left, top, width, height } = part.getBoundingClientRect();
    const words = WITHOUT_WORDS.includes(name) ? "" : part.innerText.replace(/\\s+/g, " ").trim();
    parts[name] = { place: whole([left + scrollX, top + scrollY, width, height]), words };
    colours[name] = { ink: hexOf(part, "color"), ground: hex(behind(part).join(" ")) };
  }
  // A value has its kind, its number, and mostly a name.
  const inks = (element) => Object.fromEntries([...element.querySelectorAll("text, tspan")].map((it, at) => [["ink", "number", "name"][at], hexOf(it, "fill")]));
  for (const node of document.querySelectorAll("#heap .node")) {
    const shape = node.querySelector("rect") ?? node.querySelector("circle"), { x, y, width, height } = shape.getBBox();
    const kind = classOf(node, "node", "lit", "dim");
    values[node.dataset.key] = { kind, place: whole([x, y, width, height]), words: [...node.querySelectorAll("text")].map((it) => it.textContent).join(" | ") };
    const line = shape.tagName === "rect" ? { line: hexOf(shape, "stroke") } : {};
    colours[kind] = { ...colours[kind], ground: hexOf(shape, "fill"), ...line, ...inks(node) };
  }
  for (const edge of document.querySelectorAll("#heap .edge[data-from]")) {
    const kind = classOf(edge, "lit", "dim"), path = edge.querySelector("path");
    edges[`${edge.dataset.from} > ${edge.dataset.to} ${kind}`] = { kind, place: whole(path.getAttribute("d").match(/-?[\\d.]+/g).map(Number)) };
    colours[kind] = { line: hexOf(path, "stroke") };
  }
  for (const label of document.querySelectorAll("#heap .label")) {
    const text = label.querySelector("text"), kind = classOf(label, "dim"), place = whole([text.getAttribute("x"), text.getAttribute("y")].map(Number));
    labels[`${label.dataset.of.replace(" n", " > n").replace(" e", " > e")} ${kind}`] = { kind, place, words: text.textContent };
    colours[kind] = { ink: hexOf(text, "fill") };
  }
  const scale = Math.round(Number(document.querySelector("#heap svg").dataset.scale) * 1000) / 1000;
  return { window: [innerWidth, innerHeight], scale, parts, values, edges, labels, colours };
};
"""


def read(tab):
    """The sketch of a page that is shown in the light, without its dark colours."""
    got = tab.value("sketch()")
    return {**got, "colours": {"light": got["colours"]}}


# As an SVG


def selector(kind):
    return "".join(f".{name}" for name in kind.split(" "))


def styles(colours):
    """The colours of one scheme, a line for each class."""
    return [f"{selector(kind)} {{ {' '.join(f'--{name}: {value};' for name, value in sorted(row.items()))} }}" for kind, row in sorted(colours.items())]


def written(sketch):
    """A sketch as an SVG, with one thing on a line. It is light or dark as its reader is."""
    width, height = sketch["window"]
    bottom = max(part["place"][1] + part["place"][3] for part in sketch["parts"].values())
    heap, scale = sketch["parts"]["heap"]["place"], sketch["scale"]
    lines = [
        f'<svg xmlns="http://www.w3.org/2000/svg" width="{width}" height="{max(height, bottom + 10)}" data-window="{width} {height}" data-scale="{scale}">',
        "<style>", "text { font: 13px sans-serif; } .heap text { font-size: 12px; text-anchor: middle; }",
        "rect, circle { fill: var(--ground); stroke: var(--line); } text { fill: var(--ink); } path { fill: none; stroke: var(--line); } .weak path { stroke-dasharray: 5 4; }",
        *styles(sketch["colours"]["light"]), "@media (prefers-color-scheme: dark) {", *styles(sketch["colours"]["dark"]), "}", "</style>",
        f'<rect width="{width}" height="{max(height, bottom + 10)}" class="foot" data-key=""/>',
    ]
    for name, part in sketch["parts"].items():
        lines.append(thing("part", name, name, part, part["place"][0] + 8, part["place"][1] + 17))
    x, y, wide, high = heap
    lines.append(f'<svg class="heap" x="{x}" y="{y}" width="{wide}" height="{high}"><g transform="scale({scale})">')
    for name, edge in sketch["edges"].items():
        a, b, c, d, e, f, g, h = edge["place"]
        lines.append(f'<g class="{edge["kind"]}" data-edge={quoteattr(name)}><path d="M{a} {b}C{c} {d} {e} {f} {g} {h}"/></g>')
    for name, value in sketch["values"].items():
        left, top, wide, high = value["place"]
        lines.append(thing("value", name, value["kind"], value, left + wide // 2, top + high // 2 + (4 if BETWEEN not in value["words"] else -4)))
    for name, label in sketch["labels"].items():
        x, y = label["place"]
        lines.append(f'<g class="{label["kind"]}" data-label={quoteattr(name)}><text x="{x}" y="{y}">{escape(label["words"])}</text></g>')
    return "\n".join([*lines, "</g></svg>", "</svg>", ""])


def thing(what, name, kind, one, x, y):
    """A box with its lines of words, the first one at a place."""
    left, top, wide, high = one["place"]
    lines = one["words"].split(BETWEEN) if one["words"] else []
    text = "".join(f'<text x="{x}" y="{y + 16 * at}">{escape(line)}</text>' for at, line in enumerate(lines))
    return f'<g class="{kind}" data-{what}={quoteattr(name)}><rect x="{left}" y="{top}" width="{wide}" height="{high}" rx="5"/>{text}</g>'


def kept(text):
    """The sketch that an SVG has."""
    root = tree.fromstring(text)
    light, dark = root.find(f"{SPACE}style").text.split("@media")
    found = {"window": [int(one) for one in root.get("data-window").split()], "scale": float(root.get("data-scale"))}
    found |= {"parts": {}, "values": {}, "edges": {}, "labels": {}, "colours": {"light": colours(light), "dark": colours(dark)}}
    for group in root.iter(f"{SPACE}g"):
        words = BETWEEN.join(text.text for text in group.findall(f"{SPACE}text"))
        if name := group.get("data-part"):
            found["parts"][name] = {"place": box(group), "words": words}
        elif name := group.get("data-value"):
            found["values"][name] = {"kind": group.get("class"), "place": box(group), "words": words}
        elif name := group.get("data-edge"):
            numbers = re.findall(r"-?\d+", group.find(f"{SPACE}path").get("d"))
            found["edges"][name] = {"kind": group.get("class"), "place": [int(one) for one in numbers]}
        elif name := group.get("data-label"):
            place = group.find(f"{SPACE}text")
            found["labels"][name] = {"kind": group.get("class"), "place": [int(place.get("x")), int(place.get("y"))], "words": words}
    return found


def box(group):
    rect = group.find(f"{SPACE}rect")
    return [int(rect.get(name)) for name in ("x", "y", "width", "height")]


def colours(text):
    """The colours of one scheme, by the classes that have them."""
    rows = re.findall(r"^((?:\.[\w-]+)+) \{ (--.*) \}$", text, re.M)
    return {kind[1:].replace(".", " "): dict(re.findall(r"--(\w+): ([^;]*);", row)) for kind, row in rows}


# Beside each other


def differences(wanted, got):
    """What of a sketch is not as in another one, in words."""
    found = [f"the {what} is {got[what]}, and was {wanted[what]}" for what in ("window", "scale") if wanted[what] != got[what]]
    for what, near in NEAR.items():
        found += lists(what[:-1], near, wanted[what], got[what])
    for scheme, rows in wanted["colours"].items():
        for kind in sorted({*rows, *got["colours"][scheme]}):
            one, other = rows.get(kind), got["colours"][scheme].get(kind)
            if one != other:
                found.append(f"the colours of {kind}, {scheme}, are {other}, and were {one}")
    return found


def lists(what, near, wanted, got):
    """The same of things by their names."""
    for name in sorted({*wanted, *got}):
        one, other = wanted.get(name), got.get(name)
        if one is None or other is None:
            yield f"the {what} {name} is {'new' if one is None else 'missing'}"
            continue
        for part in ("kind", "words"):
            if one.get(part) != other.get(part):
                yield f"the {part} of {what} {name}: {other.get(part)!r}, and was {one.get(part)!r}"
        if max(abs(left - right) for left, right in zip(one["place"], other["place"])) > near:
            yield f"the {what} {name} stands at {other['place']}, and stood at {one['place']}"
