#!/usr/bin/env python3
"""The kept pictures of the page, drawn again: tests/rows/pictures has one for each plan there and each width of a window.

Usage: page_pictures.py [--write] [--look FOLDER]

- In a browser without a window, from the disk: the page with a plan of 24 values, right after a collection, and with one of 60, of
  which some are no longer reached; at 390, 1280 and 1920 pixels, light and dark. Each picture has the same values, edges and words
  as the kept one, its parts stand where they stood (a few pixels aside), and its colours are the same.
- No text of the picture lies on another one or leaves its box, no text of the page is cut or stands outside of the window, texts
  have a contrast of 4.5 and lines of 3, and the current row and the marked command can be seen. So it is with a chosen value too.
- Faults that are planted in the page are noticed: a label that is moved onto another one, and a colour of too little contrast.

With --write the pictures are kept as they are drawn now. Look at them first: with --look the page is painted into a folder. What it
left out, for want of a tool, it says before its last line, `N passed, M failed`.
"""

import argparse
import os
import sys
import urllib.parse

TOP = os.path.dirname(os.path.dirname(os.path.dirname(os.path.abspath(__file__))))
sys.path.insert(0, os.path.join(TOP, "tests", "lib"))

import browser
import page_browser
import page_looks
import page_sketch
import page_trace
import running

FOLDER = os.path.join(TOP, "tests", "rows", "pictures")
WINDOWS = [(390, 844), (1280, 800), (1920, 1080)]
# Each plan, the button that goes to the row that is drawn, and a value that is chosen then.
PLANS = {"24": ("to-collection", 4), "60": ("to-last", 4)}
# What is to be empty of each page, and what that says.
RULES = {
    "covered().covered": "texts that lie on something", "bursting()": "texts that are wider than their boxes",
    "cut()": "texts that are cut, or outside of the window", "pale(4.5).pale": "pale texts", "thin(3)": "pale lines",
    "unseen()": "what should be in view",
}
# The plan and the window in which faults are planted.
PLANTED = ("24", (1280, 800))


def read(name):
    with open(os.path.join(FOLDER, name), encoding="utf-8") as file:
        return file.read()


def show(tab, name, window):
    """Opens the page at its beginning, so wide, with a plan at its row."""
    page_looks.dark(tab, False)
    page_looks.sized(tab, *window)
    # By a link: a page that is opened anew has what was written last, and does not run it once more.
    page_browser.begin(tab, f"{page_browser.PAGE}#plan={urllib.parse.quote(read(f'{name}.json'))}")
    for tools in (page_trace.TOOLS, page_looks.TOOLS, page_sketch.TOOLS):
        tab.value(tools)
    tab.value(f"at('{PLANS[name][0]}').click(), rest(60)")


def keeps_rules(count, tab, what):
    for rule, said in RULES.items():
        count.expect(f"{what}: {said}", tab.value(rule), [])


def draw(count, tab, name, window):
    """The sketch of a page, with the colours of both schemes. Nothing but colours is another in the dark."""
    show(tab, name, window)
    what = f"{name} values at {window[0]} pixels"
    light = page_sketch.read(tab)
    keeps_rules(count, tab, f"{what}, light")
    page_looks.dark(tab, True)
    dark = page_sketch.read(tab)
    keeps_rules(count, tab, f"{what}, dark")
    count.expect(f"{what}: places in the dark", page_sketch.differences({**light, "colours": {}}, dark), [])
    return {**light, "colours": light["colours"] | {"dark": dark["colours"]["light"]}}


def chosen(count, tab, name, window):
    """The rules where a value is chosen, and what is not beside it steps back."""
    page_looks.dark(tab, False)
    tab.value(f"press({PLANS[name][1]}), rest(60)")
    keeps_rules(count, tab, f"{name} values at {window[0]} pixels, one chosen")


def planted(count, tab):
    """A label that is moved onto another one, and one ink that is made pale, in the page as it is drawn."""
    show(tab, *PLANTED)
    wanted = {**(sketch := page_sketch.kept(read(file_of(*PLANTED)))), "colours": {"light": sketch["colours"]["light"]}}
    count.expect("nothing is planted yet", page_sketch.differences(wanted, page_sketch.read(tab)), [])
    moves = "for (const side of ['x', 'y']) labels[1].setAttribute(side, labels[0].getAttribute(side))"
    moved = tab.value(f"(() => {{ const labels = document.querySelectorAll('#heap .label text'); {moves}; return labels[1].parentElement.dataset.of; }})()")
    told = page_sketch.differences(wanted, page_sketch.read(tab))
    count.expect("a label that was moved", [f"the label {moved.replace(' n', ' > n')}" in one for one in told], [True])
    count.expect("a label on another one", len(tab.value("covered().covered")), 1)
    show(tab, *PLANTED)
    tab.value("document.head.append(Object.assign(document.createElement('style'), { textContent: '.edge.weak text { fill: #7fa8d0; }' }))")
    told = page_sketch.differences(wanted, page_sketch.read(tab))
    count.expect("a colour that was changed", [one.split(",")[0] for one in told], ["the colours of edge label weak"])
    count.expect("a text of too little contrast", len(tab.value("pale(4.5).pale")) > 0, True)


def file_of(name, window):
    return f"{name}-{window[0]}.svg"


def in_browser(count, path, writes, folder):
    with browser.Browser(path) as tab:
        for name in PLANS:
            for window in WINDOWS:
                sketch = draw(count, tab, name, window)
                if folder:
                    look(tab, name, window, folder)
                if writes:
                    with open(os.path.join(FOLDER, file_of(name, window)), "w", encoding="utf-8") as file:
                        file.write(page_sketch.written(sketch))
                for fault in page_sketch.differences(page_sketch.kept(read(file_of(name, window))), sketch) or [None]:
                    count.add(f"{file_of(name, window)} is what is drawn", fault)
                chosen(count, tab, name, window)
        planted(count, tab)
        thrown = [event["params"]["exceptionDetails"] for event in tab.events if event["method"] == "Runtime.exceptionThrown"]
        count.expect("what the page threw", thrown, [])


def look(tab, name, window, folder):
    os.makedirs(folder, exist_ok=True)
    for is_dark in (False, True):
        tab.look(*window, is_dark, os.path.join(folder, f"{name}-{window[0]}-{'dark' if is_dark else 'light'}.png"))


def main():
    parser = argparse.ArgumentParser(description=__doc__, formatter_class=argparse.RawDescriptionHelpFormatter)
    parser.add_argument("--write", action="store_true")
    parser.add_argument("--look", metavar="FOLDER")
    given = parser.parse_args()
    count, path = running.Count(), browser.found()
    if path is None:
        print("Left out: all, as there is no chromium.")
    else:
        in_browser(count, path, given.write, given.look)
    count.end()


if __name__ == "__main__":
    main()
