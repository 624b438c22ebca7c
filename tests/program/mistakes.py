#!/usr/bin/env python3
"""Mistakes that a person makes in a plan, and what `clusterrun explain` says of each, by hand.

The rows are those of mistake_rows.py. Besides, each text that is cut off, and each of which a letter is taken out, has a
place and a sentence where it is no JSON.

Usage: mistakes.py PROGRAM. Prints what differs, and `N passed, M failed` last.
"""

import json
import os
import re
import subprocess
import sys

TOP = os.path.dirname(os.path.dirname(os.path.dirname(os.path.abspath(__file__))))
sys.path.insert(0, os.path.join(TOP, "tests", "lib"))

import mistake_rows


def said_of(program, data):
    """The status and the lines of explain."""
    ran = subprocess.run([program, "explain"], input=data, stdout=subprocess.PIPE, stderr=subprocess.PIPE, check=False)
    return ran.returncode, ran.stdout.decode("utf-8").split("\n")[:-1]


def is_right(program, data, lines):
    status, said = said_of(program, data)
    given = [it if want is not None else None for it, want in zip(said, lines)]
    return status == 1 and len(said) == len(lines) and given == lines, said


def broken(program):
    """A text that is cut off, or lacks a letter: what is no JSON has a place and a sentence, and none is the last resort."""
    text = mistake_rows.plan_of(run='[["let", "x", "a\\u00e9"], ["let", "y", -1.5e3]]')
    for at in range(len(text)):
        for kind, data in (("cut", text[:at]), ("lacking", text[:at] + text[at + 1 :])):
            status, said = said_of(program, data.encode())
            try:
                json.loads(data)
                yield f"{kind} at {at}", not (said and said[0].startswith("S1"))
            except ValueError:
                form = bool(said) and re.fullmatch(r"S1 line \d+ column \d+", said[0]) is not None
                yield f"{kind} at {at}", status == 1 and len(said) == 2 and form


def main():
    program = sys.argv[1]
    passed = failed = 0
    for name, data, lines in (*mistake_rows.written(), *mistake_rows.made()):
        right, said = is_right(program, data, lines)
        passed, failed = passed + right, failed + (not right)
        if not right:
            print(f"FAILED: {name}: {said}, and not {lines}")
    for name, right in broken(program):
        passed, failed = passed + right, failed + (not right)
        if not right:
            print(f"FAILED: {name}")
    print(f"{passed} passed, {failed} failed")
    return 1 if failed else 0


if __name__ == "__main__":
    sys.exit(main())
