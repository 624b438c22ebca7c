"""What the page knows beside the engine: the scripts and the plans of its menu."""

import glob
import itertools
import os
import re
import sys

from origin import TOP

sys.path.insert(0, os.path.join(TOP, "engines", "lib"))

import corpus  # noqa: E402


# The lesson with which the page opens.
FIRST = "weakref-still-answers"


def read(*path):
    with open(os.path.join(TOP, *path), encoding="utf-8") as file:
        return file.read()


def examples():
    """The examples, in the order of their table, each with its rule."""
    for name, rule in re.findall(r"^\| `(\w+)\.json` \| (.*) \|$", read("examples", "README.md"), re.M):
        yield {"group": "examples", "name": name, "rule": rule, "text": read("examples", f"{name}.json")}


def lessons():
    """The lessons, which are scripts: each begins with comments, of which the first sentence is its title."""
    paths = sorted(glob.glob(os.path.join(TOP, "play", "lessons", "*.js")), key=lambda path: (FIRST not in path, path))
    for path in paths:
        text = read(path)
        comments = itertools.takewhile(lambda line: line.startswith("//"), text.split("\n"))
        title, rule = re.match(r"(.*?[.?:])\s*(.*)", " ".join(line.removeprefix("//").strip() for line in comments)).groups()
        yield {"group": "lessons", "name": os.path.basename(path).removesuffix(".js"), "title": title.rstrip(":."), "rule": plain(rule), "text": text}


def plans():
    """What the menu has: the lessons, the examples, and then the corpus by folders."""
    found = [*lessons(), *examples()]
    for path in corpus.paths_in([corpus.FOLDER]):
        group, name = os.path.relpath(path, corpus.FOLDER).removesuffix(".json").split(os.sep)
        found.append({"group": group, "name": name, **corpus.about(path), "text": read(path)})
    return found


def plain(text):
    """A text without marks of code and links."""
    return re.sub(r"\[([^]]*)\]\([^)]*\)", r"docs/\1.md", text).replace("`", "")
