#!/usr/bin/env python3
"""What the documents quote of a file stands in that file.

Usage: quotes.py. A block of code below a line that ends with "From `FILE`:" is a quote: its lines stand in that file one
after another, letter for letter, but for spaces at their front that all of them lack. A line `..` stands for lines that
are left out. Each document of MUST has at least one quote. Prints each quote that does not stand, and `N passed, M failed`
last.
"""

import glob
import os
import re
import sys
import textwrap

TOP = os.path.dirname(os.path.dirname(os.path.dirname(os.path.abspath(__file__))))
MUST = ["docs/EMBEDDING.md"]
QUOTE = re.compile(r"From `([^`\n]+)`:\n\n```\w*\n(.*?)^```$", re.S | re.M)


def read(path):
    with open(os.path.join(TOP, path), encoding="utf-8") as file:
        return file.read()


def documents():
    found = glob.glob(os.path.join(TOP, "*.md")) + glob.glob(os.path.join(TOP, "docs", "*.md"))
    return sorted(os.path.relpath(path, TOP) for path in found)


def parts(block):
    """The runs of lines between the lines that are left out."""
    return [part.strip("\n").split("\n") for part in re.split(r"^ *\.\.\n", block, flags=re.M) if part.strip()]


def place(part, lines, start):
    """The line after this part's lines, where they stand first from `start` on, or None."""
    wanted = textwrap.dedent("\n".join(part))
    for first in range(start, len(lines) - len(part) + 1):
        if textwrap.dedent("\n".join(lines[first:first + len(part)])) == wanted:
            return first + len(part)
    return None


def stands(block, text):
    """Whether all parts of the quote stand in the text, in order."""
    lines, start = text.split("\n"), 0
    for part in parts(block):
        start = place(part, lines, start)
        if start is None:
            return False
    return bool(parts(block))


def fault(path, block):
    if not os.path.isfile(os.path.join(TOP, path)):
        return "there is no such file"
    return None if stands(block, read(path)) else "it says something else"


def main():
    passed = failed = 0
    for document in documents():
        quotes = QUOTE.findall(read(document))
        faults = [(path, fault(path, block), block) for path, block in quotes]
        if document in MUST and not quotes:
            faults.append(("a file", "no quote", "\n"))
        for path, why, block in faults:
            passed, failed = passed + (why is None), failed + (why is not None)
            if why:
                print(f"FAILED: {document} quotes {path}, and {why}: {block.strip().split(chr(10))[0]}")
    print(f"{passed} passed, {failed} failed")
    return 1 if failed or not passed else 0


if __name__ == "__main__":
    sys.exit(main())
