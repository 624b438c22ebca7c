#!/usr/bin/env python3
"""The crates that changed since the last commit, and those that stand on them, lowest first; one a line.

Usage: changed.py. Used by `./check --quick`. A crate has changed if a file of it differs from the last commit or is new,
or its line of crates.txt does.
"""

import os
import subprocess

TOP = os.path.dirname(os.path.dirname(os.path.dirname(os.path.abspath(__file__))))
UNPROVED = ("README.md", ".edit")


def git(*words):
    return subprocess.run(["git", *words], cwd=TOP, stdout=subprocess.PIPE, text=True, check=True).stdout.split("\n")


def lines_of(text):
    """Each crate, with what it stands on, from the lines of a crates.txt."""
    edges = {}
    for line in text:
        names, colon, below = line.partition("#")[0].partition(":")
        if colon:
            edges[names.split()[0]] = set(below.split())
    return edges


def changed(edges):
    """The crates of which something that is proved changed."""
    files = git("diff", "--name-only", "HEAD", "--", "crates") + git("ls-files", "--others", "--exclude-standard", "--", "crates")
    found = {path.split("/")[1] for path in files if path.count("/") > 1 and not path.endswith(UNPROVED)}
    before = lines_of(git("show", "HEAD:crates.txt"))
    return (found & set(edges)) | {name for name, below in edges.items() if before.get(name) != below}


def with_those_above(found, edges):
    """These crates and all that stand on them, each after all that it stands on."""
    order, left = [], dict(edges)
    while left:
        ready = [name for name, below in left.items() if not below & set(left)]
        order += ready
        for name in ready:
            del left[name]
    for name in order:
        if edges[name] & found:
            found = found | {name}
    return [name for name in order if name in found]


def main():
    with open(os.path.join(TOP, "crates.txt"), encoding="utf-8") as file:
        edges = lines_of(file.read().split("\n"))
    for name in with_those_above(changed(edges), edges):
        print(name)


main()
