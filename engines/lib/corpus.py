"""The corpus: plans in folders by rule, with what each shows, and the sections of ECMA-262 that it covers."""

import json
import os
import re

TOP = os.path.dirname(os.path.dirname(os.path.dirname(os.path.abspath(__file__))))
FOLDER = os.path.join(TOP, "engines", "corpus")
STANDARD = os.path.join(TOP, "docs", "STANDARD.md")
ABOUT = "about.json"


def paths_in(places):
    """The files of all plans in these files and folders, in order."""
    found = []
    for place in places:
        if os.path.isfile(place):
            found.append(place)
        for folder, inner, names in os.walk(place):
            inner.sort()
            found += [os.path.join(folder, name) for name in sorted(names) if name.endswith(".json") and name != ABOUT]
    return found


def about(path):
    """The title of a plan, the rule that it shows, and the section; where nothing is said of it, its name."""
    side = os.path.join(os.path.dirname(path), ABOUT)
    name = os.path.basename(path).removesuffix(".json")
    if os.path.isfile(side):
        with open(side, encoding="utf-8") as file:
            found = json.load(file)
        if name in found:
            return found[name]
    return {"title": name, "rule": "", "section": ""}


def sections():
    """The sections of ECMA-262 that the work rests on, each once, in the order of the rows of docs/STANDARD.md. A row
    that begins with `the same` is of the section before it."""
    found = []
    with open(STANDARD, encoding="utf-8") as file:
        for line in file:
            row = re.match(r"\| (?!Section \|)([^|]*) \|", line)
            if row:
                title = row[1].replace("the same", found[-1].rsplit(":", 1)[0]) if found else row[1]
                if title not in found:
                    found.append(title)
    return found
