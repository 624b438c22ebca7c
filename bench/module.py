#!/usr/bin/env python3
"""Times the module for JavaScript and the page that are kept in play/: in node, in Chromium and in Firefox, each if it is there.

Usage: module.py [--times N]

Each number is the median of N (7) processes: a node, or a browser without a window, that is begun anew. In each the module is
imported, called a first time with examples/gone.json, called 2,000 times more with it, and then runs and traces the plan `list` of
plans.py with 100,000 objects, each held by the next one. Of the page it is the time from its address to the steps of its first
lesson, in a browser that was begun anew too; there the clock is read each 5 milliseconds. Prints a table for docs/PERFORMANCE.md, in
milliseconds, and what machine it was, with its load before and after.
"""

import argparse
import json
import os
import statistics
import subprocess
import sys
import tempfile

HERE = os.path.dirname(os.path.abspath(__file__))
TOP = os.path.dirname(HERE)
sys.path[:0] = [os.path.join(TOP, "tests", "page"), os.path.join(TOP, "tests", "lib")]

import browser  # noqa: E402
import firefox  # noqa: E402
import kept_page  # noqa: E402
import page_browser  # noqa: E402

OBJECTS = 100_000
SMALL = os.path.join(TOP, "examples", "gone.json")
SCRIPT = os.path.join(HERE, "module.mjs")
# The rows of the table: what is measured, its name in the numbers, and how many digits it has.
ROWS = [
    ("the import", "imported", 0), ("the first call, `examples/gone.json`", "first", 1), ("a later call with it, of 2,000", "call", 3),
    ("`list={0}`, {1:.1f} MB: its run", "ran", 0), ("its trace", "traced", 0), ("the page, to its first steps", "page", 0),
]
# From an address to the first steps of a page.
OPENED = "(async () => { while (at('step').textContent === '') await rest(5); return performance.now(); })()"


def read(path):
    with open(path, encoding="utf-8") as file:
        return file.read()


def in_node(words, room):
    """The numbers of one process of node."""
    said = subprocess.run([*words, SCRIPT, kept_page.SCRIPT, SMALL, room.large], stdout=subprocess.PIPE, stderr=subprocess.DEVNULL, check=True).stdout
    return json.loads(said)


def in_page(tab, room):
    """The numbers of one browser: of the page, and then of the module in an empty page, as the page's policy lets nothing be imported."""
    tab.open(page_browser.PAGE)
    tab.value(page_browser.TOOLS)
    opened = tab.value(OPENED)
    tab.open(f"file://{room.empty}")
    texts = [json.dumps(read(path)) for path in (kept_page.SCRIPT, SMALL, room.large)]
    load = f"() => import(URL.createObjectURL(new Blob([{texts[0]}], {{ type: 'text/javascript' }})))"
    measured = read(SCRIPT).split("if (globalThis")[0]
    return {"page": opened, **tab.value(f"(() => {{ {measured} return measured({load}, {texts[1]}, {texts[2]}); }})()")}


def in_chromium(path, room):
    with browser.Browser(path) as tab:
        return in_page(tab, room)


def in_firefox(path, room):
    with firefox.Firefox(path, [page_browser.TOOLS]) as tab:
        return in_page(tab, room)


class Room:
    """A folder with the large plan, and with a page that is empty."""

    def __init__(self, folder):
        self.large, self.empty = os.path.join(folder, "large.json"), os.path.join(folder, "empty.html")
        with open(self.large, "wb") as file:
            subprocess.run([sys.executable, os.path.join(HERE, "plans.py"), "list", str(OBJECTS)], stdout=file, check=True)
        with open(self.empty, "w", encoding="utf-8") as file:
            file.write("<!doctype html>\n")


def version(words):
    """A program with its version, as it says it."""
    return subprocess.run([*words, "--version"], stdout=subprocess.PIPE, stderr=subprocess.DEVNULL, text=True, check=True).stdout.strip()


def machine():
    """What the times are of."""
    with open("/proc/meminfo", encoding="ascii") as file:
        memory = int(file.readline().split()[1]) / 1024 / 1024
    uname = os.uname()
    return f"{os.cpu_count()} processors, {memory:.0f} GB, {uname.sysname} {uname.release}"


def load():
    return " ".join(f"{one:.1f}" for one in os.getloadavg())


def main():
    parser = argparse.ArgumentParser(description=__doc__, formatter_class=argparse.RawDescriptionHelpFormatter)
    parser.add_argument("--times", type=int, default=7)
    times = parser.parse_args().times
    before, tools = load(), []
    for name, found, measure in (("node", kept_page.node(), in_node), ("Chromium", browser.found(), in_chromium), ("Firefox", firefox.found(), in_firefox)):
        if found is None:
            print(f"Left out: {name}, which is not here.", file=sys.stderr)
        else:
            tools.append((name, found, measure))
    with tempfile.TemporaryDirectory() as folder:
        room = Room(folder)
        # In turn, so that another load of the machine does not meet one of them alone.
        taken = {name: [] for name, *_ in tools}
        for _ in range(times):
            for name, found, measure in tools:
                taken[name].append(measure(found, room))
        size = os.path.getsize(room.large) / 1e6
    print(f"| ms | {' | '.join(taken)} |\n|---|{'---|' * len(taken)}")
    for said, key, digits in ROWS:
        medians = [statistics.median(row[key] for row in rows) if key in rows[0] else None for rows in taken.values()]
        print(f"| {said.format(OBJECTS, size)} | {' | '.join('' if one is None else f'{one:.{digits}f}' for one in medians)} |")
    print(f"\nMedians of {times}; {machine()}, load {before} before and {load()} after.")
    print("; ".join(version(found if isinstance(found, list) else [found]) for _, found, _ in tools))


if __name__ == "__main__":
    main()
