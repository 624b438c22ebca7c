#!/usr/bin/env python3
"""The reader of JavaScript, play/syntax, beside acorn and V8.

Usage: script_reader.py

- The scripts of script_reader/whole.txt: their trees are acorn's, and V8 reads them. Those of faulty.txt: all refuse them, and
  the fault is told at the marked letter. Those of later.txt are faulty too, and V8 reads them.
- Faults in words, lines with a mark, scripts that are nested without end, and the time of 200 kB.
- Every script of the repository and of Debian's and node's own packages: the same tree, or both refuse it.

What it left out, for want of node or of node-acorn, it says before its last line, `N passed, M failed`.
"""

import os
import re
import shutil
import subprocess
import sys

TOP = os.path.dirname(os.path.dirname(os.path.dirname(os.path.abspath(__file__))))
TESTS = os.path.join(TOP, "tests")
ACORN = "/usr/share/nodejs/acorn/dist/acorn.mjs"
OTHERS = ["/usr/share/nodejs", "/usr/share/javascript", "/usr/lib/node_modules"]
MOST_FILES, MOST_BYTES = 1000, 300_000
WORDS = ["--no-warnings", "--experimental-vm-modules"]


def scripts(folder):
    """The scripts below a folder that are not too long."""
    for at, folders, names in os.walk(folder):
        folders.sort()
        for name in sorted(names):
            path = os.path.join(at, name)
            if re.search(r"\.[cm]?js$", name) and os.path.isfile(path) and os.path.getsize(path) <= MOST_BYTES:
                yield path


def files():
    listed = subprocess.run(["git", "ls-files", "*.mjs", "*.js"], cwd=TOP, stdout=subprocess.PIPE, text=True, check=True).stdout
    others = [path for folder in OTHERS for path in scripts(folder)]
    return [os.path.join(TOP, path) for path in listed.split("\n") if path] + others[:MOST_FILES]


def main():
    node = shutil.which("node")
    if node is None:
        print("Left out: the reader of JavaScript, as there is no node.\n0 passed, 0 failed")
        return 0
    has_acorn = os.path.exists(ACORN)
    words = [node, *WORDS, os.path.join(TESTS, "page", "script_reader.mjs"), os.path.join(TESTS, "rows", "script_reader")]
    said = subprocess.run(
        [*words, ACORN] if has_acorn else words, input="\n".join(files()), stdout=subprocess.PIPE, text=True, check=False,
    ).stdout
    lines = said.splitlines()
    if not has_acorn:
        lines.insert(-1, "Left out: trees beside acorn's, as there is no node-acorn.")
    if not lines or not re.fullmatch(r"\d+ passed, \d+ failed", lines[-1]):
        lines += ["FAILED: the test did not come to its end", "0 passed, 1 failed"]
    print("\n".join(lines))
    return 0 if lines[-1].endswith(" 0 failed") else 1


if __name__ == "__main__":
    sys.exit(main())
