#!/usr/bin/env python3
"""docs/PROVED.md quotes its theorem from the definitions.

Usage: formula.py. Each line of the code block below the heading HEADING stands, letter for letter, in a file of
crates/*/specs. Prints each line that does not, and `N passed, M failed` last.
"""

import glob
import os
import sys

TOP = os.path.dirname(os.path.dirname(os.path.dirname(os.path.abspath(__file__))))
HEADING = "## The theorem"


def lines_of(path):
    with open(path, encoding="utf-8") as file:
        return file.read().split("\n")


def quoted():
    """The lines of the first code block below the heading."""
    lines = lines_of(os.path.join(TOP, "docs", "PROVED.md"))
    below = lines[lines.index(HEADING):]
    start = below.index("```")
    return below[start + 1:below.index("```", start + 1)]


def main():
    defined = set()
    for path in glob.glob(os.path.join(TOP, "crates", "*", "specs", "*.antt")):
        defined.update(lines_of(path))
    lines = quoted()
    missing = [line for line in lines if line not in defined]
    for line in missing:
        print(f"no definition says: {line}")
    print(f"{len(lines) - len(missing)} passed, {len(missing)} failed")
    return 1 if missing or not lines else 0


sys.exit(main())
