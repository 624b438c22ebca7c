#!/usr/bin/env python3
"""Wrong bodies that the gate does not try: the edits in tests/wrong_bodies/CRATE.

Usage: wrong_bodies.py           each edit, and each that the gate tries, can still be applied to the crate as it stands: the
                                 gate only notes one that can't
       wrong_bodies.py CRATE ..  the prover refuses each edit of these crates (run it when you change one of them)

An edit has a line `file: ` and then pairs of lines `old: ` and `new: `, as those in crates/CRATE/must-fail. Prints each
edit that fails, and `N passed, M failed` last.
"""

import glob
import os
import re
import shutil
import subprocess
import sys
import tempfile

TOP = os.path.dirname(os.path.dirname(os.path.dirname(os.path.abspath(__file__))))
HERE = os.path.join(TOP, "tests", "wrong_bodies")


def edits_of(crate):
    return sorted(glob.glob(os.path.join(HERE, crate, "*.edit")))


def cannot_apply(edit, crate):
    """Says why the edit cannot be applied to the crate, or None."""
    path = old = None
    pairs = 0
    with open(edit, encoding="utf-8") as file:
        lines = file.read().split("\n")
    for line in lines:
        if line.startswith("file: "):
            path = os.path.join(TOP, "crates", crate, line[len("file: "):])
            if not os.path.isfile(path):
                return f"there is no {line[len('file: '):]}"
        elif line.startswith("old: "):
            old = line[len("old: "):]
        elif line.startswith("new:"):
            if path is None or old is None:
                return "a new line without a file or an old line"
            with open(path, encoding="utf-8") as file:
                found = file.read().count(old)
            if found != 1:
                return f"an old line stands {found} times"
            old, pairs = None, pairs + 1
    return None if pairs else "no pair of lines"


def all_edits():
    """Each crate with an edit of it, of those that are tried by hand and then of those that the gate tries."""
    for crate in sorted(os.listdir(HERE)):
        yield from ((crate, edit) for edit in edits_of(crate))
    for edit in sorted(glob.glob(os.path.join(TOP, "crates", "*", "must-fail", "*.edit"))):
        yield edit.split(os.sep)[-3], edit


def applied():
    """Tries that each edit can be applied."""
    passed = failed = 0
    for crate, edit in all_edits():
        why = cannot_apply(edit, crate)
        if why:
            print(f"{crate}/{os.path.basename(edit)}: {why}")
        passed, failed = passed + (not why), failed + bool(why)
    return passed, failed


def refused(crates):
    """Hands the prover each edit of the crates, in a copy of the tree with what is built there."""
    passed = failed = 0
    with tempfile.TemporaryDirectory() as room:
        shutil.copytree(os.path.join(TOP, "crates"), os.path.join(room, "crates"), symlinks=True)
        shutil.copy(os.path.join(TOP, "crates.txt"), room)
        for crate in crates:
            edits = edits_of(crate)
            folder = os.path.join(room, "crates", crate, "must-fail")
            shutil.rmtree(folder, ignore_errors=True)
            os.mkdir(folder)
            for edit in edits:
                shutil.copy(edit, folder)
            ran = subprocess.run(["rt", "must-fail", crate], cwd=room, stdin=subprocess.DEVNULL, stdout=subprocess.PIPE, text=True)
            print(ran.stdout, end="")
            well = len(re.findall(r"^(?:rt: )?must-fail \S+: refused, as it must be", ran.stdout, re.MULTILINE))
            passed, failed = passed + well, failed + len(edits) - well
    return passed, failed


def main():
    crates = sys.argv[1:]
    lacking = [crate for crate in crates if not edits_of(crate)]
    if lacking:
        print(f"no wrong bodies of {', '.join(lacking)}")
        return 2
    passed, failed = refused(crates) if crates else applied()
    print(f"{passed} passed, {failed} failed")
    return 1 if failed else 0


if __name__ == "__main__":
    sys.exit(main())
