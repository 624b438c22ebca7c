#!/usr/bin/env python3
"""Whether docs/PROVED.md has each law of the repository, with the sentence that stands above it.

Usage: laws.py [--write]. Prints each fault, and `N passed, M failed` last; with --write the table of laws in
docs/PROVED.md is made anew.

A law is a definition `abbrev pub NAME : Type 0` of `crates/*/specs` which a function of its name promises, that does
nothing. Its sentence is the comment above it.
"""

import glob
import os
import re
import sys

TOP = os.path.dirname(os.path.dirname(os.path.dirname(os.path.abspath(__file__))))
PAGE = os.path.join(TOP, "docs", "PROVED.md")
HEAD = "| Law | What it says | Proved in |\n|---|---|---|\n"
LAW = re.compile(r"((?:^--.*\n)+)abbrev pub ([A-Z]\w*) : Type 0$", re.M)


def read(path):
    with open(path, encoding="utf-8") as file:
        return file.read()


def function_of(law):
    """The name of the function that promises a law."""
    return re.sub(r"(?<!^)(?=[A-Z])", "_", law).lower()


def owners():
    """Each public function and the crate that has it."""
    found = {}
    for path in glob.glob(os.path.join(TOP, "crates/*/src/**/*.rt"), recursive=True):
        for name in re.findall(r"^pub fn (\w+)(?:<[^>]*>)?\(\)", read(path), re.M):
            found[name] = os.path.relpath(path, os.path.join(TOP, "crates")).split(os.sep)[0]
    return found


def crates():
    return re.findall(r"^(\w+)[^:#\n]*:", read(os.path.join(TOP, "crates.txt")), re.M)


def laws():
    """The rows of the table: each law, its sentence and its crate, by crates as crates.txt has them."""
    owner, rows = owners(), []
    for place, crate in enumerate(crates()):
        for path in sorted(glob.glob(os.path.join(TOP, "crates", crate, "specs", "*.antt"))):
            for comment, law in LAW.findall(read(path)):
                if function_of(law) in owner:
                    sentence = " ".join(line[2:].strip() for line in comment.splitlines())
                    rows.append((crates().index(owner[function_of(law)]), place, f"| `{law}` | {sentence} | {owner[function_of(law)]} |"))
    return [row for _, _, row in sorted(rows, key=lambda row: row[:2])]


def main():
    table = HEAD + "".join(f"{row}\n" for row in laws())
    page = read(PAGE)
    kept = re.search(re.escape(HEAD) + r"(?:\|.*\n)*", page)
    if "--write" in sys.argv[1:]:
        with open(PAGE, "w", encoding="utf-8") as file:
            file.write(page.replace(kept.group(), table))
        return 0
    there = kept.group() if kept else ""
    lacking = [row for row in laws() if f"{row}\n" not in there]
    strange = [row for row in there.splitlines()[2:] if f"{row}\n" not in table]
    for row in lacking:
        print(f"docs/PROVED.md lacks: {row}")
    for row in strange:
        print(f"docs/PROVED.md has, and the sources do not: {row}")
    failed = len(lacking) + len(strange)
    if not failed and there != table:
        print("docs/PROVED.md has the laws in another order; laws.py --write makes the table anew")
        failed = 1
    print(f"{len(laws()) - len(lacking)} passed, {failed} failed")
    return 1 if failed else 0


if __name__ == "__main__":
    sys.exit(main())
