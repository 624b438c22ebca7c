#!/usr/bin/env python3
"""What the program's `check` answers to texts, worked out by hand from the format: those of refused_texts.py.

Usage: refusals.py PROGRAM. Prints each text that is answered otherwise, and `N passed, M failed` last.
"""

import os
import subprocess
import sys

TOP = os.path.dirname(os.path.dirname(os.path.dirname(os.path.abspath(__file__))))
sys.path.insert(0, os.path.join(TOP, "tests", "lib"))

import refused_texts


def answer_of(program, text):
    """What the program says to a text, or how it ended where it should not have."""
    run = subprocess.run([program, "check"], input=text, capture_output=True, check=False)
    # What a plan is warned of stands on standard error, and plan_warnings.py looks at it.
    if run.returncode == 0 and all(line.startswith(b"warning ") for line in run.stderr.splitlines()):
        return run.stdout.decode().removesuffix("\n")
    if run.returncode == 1 and not run.stdout:
        return run.stderr.decode().removesuffix("\n")
    return f"status {run.returncode}, output {run.stdout!r}, errors {run.stderr!r}"


def main():
    program = os.path.abspath(sys.argv[1])
    passed = failed = 0
    for source in (refused_texts.tables, refused_texts.unwritten, refused_texts.beginnings, refused_texts.many_callbacks):
        for text, answer in source():
            found = answer_of(program, text)
            if found == answer:
                passed += 1
            else:
                failed += 1
                print(f"FAILED: {found}, not {answer}: {text[:200]!r}")
    print(f"{passed} passed, {failed} failed")
    return 1 if failed else 0


if __name__ == "__main__":
    sys.exit(main())
