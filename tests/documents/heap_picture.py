#!/usr/bin/env python3
"""The picture of a heap before and after a collection, docs/heap.svg, made from examples/heap.json by rules.py.

Usage: heap_picture.py          the picture that is kept is the one that is made now
       heap_picture.py --write  writes it anew

Drawn are the variables, the values that have an identity, their properties, the entries of WeakMaps and the targets of
WeakRefs, as they are before and after the first `collect`. Prints what is wrong, and `N passed, M failed` last.
"""

import os
import re
import sys

TOP = os.path.dirname(os.path.dirname(os.path.dirname(os.path.abspath(__file__))))
sys.path.insert(0, os.path.join(TOP, "tests", "lib"))

import rules

EXAMPLE = os.path.join(TOP, "examples", "heap")
PICTURE = os.path.join(TOP, "docs", "heap.svg")

WIDTH, STEP, TALL, LINE = 470, 66, 34, 13
LEFT = {"variable": 12, "near": 130, "far": 340}
BOX = {"variable": 76, "near": 112, "far": 112}
STYLE = """
  text { font: 13px sans-serif; fill: #1a1a1a; text-anchor: middle }
  .title { font-weight: bold; text-anchor: start }
  .note { font-size: 11px; fill: #555 }
  rect { fill: #fff; stroke: #1a1a1a; rx: 6 }
  .variable { fill: #eef3fb; stroke: #4a6fa5 }
  .gone { fill: #f2f2f2; stroke: #b0b0b0; stroke-dasharray: 3 3 }
  .gone-text { fill: #9a9a9a }
  path { fill: none; stroke: #1a1a1a; marker-end: url(#head) }
  .weak { stroke-dasharray: 5 4 }
  .key { stroke: #555; stroke-dasharray: 2 3; marker-end: none }
  .back { fill: #fff; stroke: #d0d0d0; rx: 0 }
""".strip("\n")


class Heap:
    """What an agent of rules.py has: by number what each value is, and who leads to whom."""

    def __init__(self, agent):
        self.gone = set(agent.gone)
        there = set(range(1, agent.made + 1)) - self.gone
        self.variables = {name: value[1] for name, value in agent.variables.items() if value[0] in ("object", "symbol")}
        self.names = {number: name_of(agent, number) for number in range(1, agent.made + 1)}
        self.properties = [
            (holder, value[1]) for holder in sorted(there & set(agent.properties))
            for value in agent.properties[holder].values() if value[0] in ("object", "symbol")
        ]
        self.entries = [
            (weakmap, key[1], value[1]) for weakmap in sorted(agent.entries)
            for key, value in agent.entries[weakmap].items() if value[0] in ("object", "symbol")
        ]
        self.targets = [
            (weakref, target[1]) for weakref, target in sorted(agent.targets.items())
            if weakref in there and target[1] in there
        ]


def name_of(agent, number):
    for kind, table in (("WeakRef", agent.targets), ("WeakMap", agent.entries), ("WeakSet", agent.members)):
        if number in table:
            return f"{kind} {number}"
    return f"object {number}" if number in agent.properties else f"symbol {number}"


def heaps():
    """The heap of the example's one agent before and after its first collection."""
    with open(EXAMPLE + ".json", "rb") as file:
        plan = rules.read_plan(file.read())
    agent = rules.Agent(plan["agents"][0], rules.Ledger())
    for job in agent.jobs:
        for command in job["run"]:
            if command[0] == "collect":
                before = Heap(agent)
                agent.collect()
                return before, Heap(agent)
            agent.do(command[0], command[1:])
        agent.kept = []
    raise ValueError("the example collects nothing")


def places(heap):
    """Where each variable and value stands, in three columns: variables, what they hold, and the rest."""
    near = list(dict.fromkeys(heap.variables.values()))
    far = [number for number in heap.names if number not in near]
    at = {}
    for row, name in enumerate(sorted(heap.variables, key=lambda name: near.index(heap.variables[name]))):
        at[name] = "variable", 40 + STEP * row
    for row, number in enumerate(near):
        at[number] = "near", 40 + STEP * row
    for row, number in enumerate(far):
        at[number] = "far", 40 + STEP * row
    return at


def box(at, it, text, kind):
    column, top = at[it]
    left, width = LEFT[column], BOX[column]
    words = "gone-text" if "gone" in kind else ""
    yield f'<rect class="{kind}" x="{left}" y="{top}" width="{width}" height="{TALL}"/>'
    yield f'<text class="{words}" x="{left + width // 2}" y="{top + 21}">{text}</text>'


def ends(at, source, goal):
    """Where a line from the one to the other begins and ends."""
    (one, top), (other, low) = at[source], at[goal]
    if one == other:
        x, down = LEFT[one] + BOX[one] // 2, low > top
        return x, top + (TALL if down else 0), x, low + (0 if down else TALL)
    forward = LEFT[one] < LEFT[other]
    start = LEFT[one] + (BOX[one] if forward else 0)
    end = LEFT[other] + (0 if forward else BOX[other])
    return start, top + TALL // 2, end, low + TALL // 2


def line(at, source, goal, kind=""):
    x, y, u, v = ends(at, source, goal)
    return f'<path class="{kind}" d="M {x} {y} L {u} {v}"/>'


def entry(at, weakmap, key, value):
    """An entry leads from its WeakMap to its value; a thin line without a head leads to its key."""
    x, y, u, v = ends(at, weakmap, value)
    mid = x + (u - x) * 2 // 5, y + (v - y) * 2 // 5
    column, top = at[key]
    side = LEFT[column] + (BOX[column] if column == "near" else 0)
    yield f'<path d="M {x} {y} L {u} {v}"/>'
    yield f'<path class="key" d="M {mid[0]} {mid[1]} L {side} {top + TALL // 2}"/>'


def panel(heap, at, gone):
    """The lines and boxes of one heap; `gone` are the numbers that are drawn as emptied."""
    for name, number in heap.variables.items():
        yield line(at, name, number)
    for holder, value in heap.properties:
        yield line(at, holder, value)
    for weakmap, key, value in heap.entries:
        yield from entry(at, weakmap, key, value)
    for weakref, target in heap.targets:
        yield line(at, weakref, target, "weak")
    for name in heap.variables:
        yield from box(at, name, name, "variable")
    for number, name in heap.names.items():
        yield from box(at, number, name, "gone" if number in gone else "value")


def picture():
    """The picture as text, and how many values the collection emptied."""
    before, after = heaps()
    at = places(before)
    height = max(top for _, top in at.values()) + TALL + 34
    emptied = after.gone - before.gone
    lines = [
        f'<svg xmlns="http://www.w3.org/2000/svg" width="{2 * WIDTH}" height="{height}" viewBox="0 0 {2 * WIDTH} {height}" role="img">',
        "<title>A heap before and after a collection: made by tests/documents/heap_picture.py from examples/heap.json</title>",
        f"<style>\n{STYLE}\n</style>",
        '<defs><marker id="head" viewBox="0 0 8 8" refX="8" refY="4" markerWidth="8" markerHeight="8" orient="auto">'
        '<path d="M 0 0 L 8 4 L 0 8 z" style="fill: #1a1a1a; stroke: none; marker-end: none"/></marker></defs>',
    ]
    for number, (title, heap, gone) in enumerate((("before collect", before, set()), ("after collect", after, emptied))):
        lines.append(f'<g transform="translate({WIDTH * number} 0)">')
        lines.append(f'<rect class="back" x="0" y="0" width="{WIDTH}" height="{height}"/>')
        lines.append(f'<text class="title" x="12" y="24">{title}</text>')
        lines += panel(heap, at, gone)
        lines.append("</g>")
    note = "variables at the left; solid: holds; dotted: the key of an entry; dashed: the target of a WeakRef; grey: emptied"
    lines.append(f'<text class="note" x="{WIDTH}" y="{height - LINE}">{note}</text>')
    return "\n".join([*lines, "</svg>", ""]), len(emptied)


def reported():
    """How many values the first collection emptied by the example's report."""
    with open(EXAMPLE + ".report", encoding="utf-8") as file:
        return int(re.search(r"^emptied (\d+)$", file.read(), re.M)[1])


def main():
    text, emptied = picture()
    if sys.argv[1:] == ["--write"]:
        with open(PICTURE, "w", encoding="utf-8") as file:
            file.write(text)
        return 0
    with open(PICTURE, encoding="utf-8") as file:
        kept = file.read()
    faults = []
    if kept != text:
        faults.append("docs/heap.svg is not the picture of examples/heap.json: tests/documents/heap_picture.py --write makes it anew")
    if emptied != reported():
        faults.append(f"the picture has {emptied} emptied values, and the report {reported()}")
    for it in faults:
        print(f"FAILED: {it}")
    print(f"{2 - len(faults)} passed, {len(faults)} failed")
    return 1 if faults else 0


if __name__ == "__main__":
    sys.exit(main())
