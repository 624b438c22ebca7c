"""Modules of play/ as one text that imports nothing: each is a function that is called, and gives what the module exports.

A module stands after those that it imports. Where modules need each other, what is not there yet is called through its module
later; so from such a module only functions may be imported.
"""

import os
import re

from origin import PLAY

IMPORT = re.compile(r'^import (?:\{([^}]*)\} from )?"(\.{1,2}/[\w./]+\.mjs)";$', re.M)
EXPORT = re.compile(r"^export (?=(?:async )?(?:function|class|const|let)\b)", re.M)
LIST = re.compile(r"^export \{[^}]*\};\n", re.M)
LEFT = re.compile(r"^(?:import|export)\b.*", re.M)


class Bundle:
    """Modules, in the order in which they need each other, and what each has to give to others."""

    def __init__(self):
        self.modules, self.wanted = {}, {}

    def add(self, path):
        """Puts in a module, by its path below play/, after those that it needs."""
        if path in self.wanted:
            return
        self.wanted[path] = set()
        with open(os.path.join(PLAY, path), encoding="utf-8") as file:
            text = file.read()
        for given, other in IMPORT.findall(text):
            self.add(beside(path, other))
            self.wanted[beside(path, other)] |= {name for name, _ in names(given)}
        self.modules[path] = text

    def text(self):
        done, texts = set(), []
        for path, text in self.modules.items():
            texts.append(self.wrapped(path, text, done))
            done.add(path)
        return "\n".join(texts)

    def wrapped(self, path, text, done):
        """A module as a function that is called. `done` are those that stand before it."""
        text = IMPORT.sub(lambda found: taken(path, found, done), LIST.sub("", EXPORT.sub("", text)))
        if left := LEFT.search(text):
            raise ValueError(f"{path} can't stand in the page: {left[0]}")
        return f'const {called(path)} = (() => {{\n"use strict";\n{text}return {{ {", ".join(sorted(self.wanted[path]))} }};\n}})();\n'


def taken(path, found, done):
    """What stands for an import."""
    given, other = names(found[1] or ""), beside(path, found[2])
    if not given:
        return ""
    if other in done:
        return f"const {{ {', '.join(name if name == own else f'{name}: {own}' for name, own in given)} }} = {called(other)};"
    return " ".join(f"const {own} = (...words) => {called(other)}.{name}(...words);" for name, own in given)


def names(listed):
    """The names of a list, each with that under which it is taken."""
    parts = [part.strip().split(" as ") for part in listed.split(",") if part.strip()]
    return [(part[0], part[-1]) for part in parts]


def beside(path, other):
    """The path below play/ of what a module names from its own place."""
    return os.path.normpath(os.path.join(os.path.dirname(path), other))


def called(path):
    """What the module is called in the whole text."""
    return re.sub(r"\W", "_", path.removesuffix(".mjs")) + "_part"


def bundled(path):
    """The text of a module with all that it needs."""
    whole = Bundle()
    whole.add(path)
    return whole.text()
