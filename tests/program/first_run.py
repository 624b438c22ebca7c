#!/usr/bin/env python3
"""What the program does that the script ./clusterrun runs before anything is proved (the crate first_run): its words, its
file or standard input, its status, and both outputs.

Usage: first_run.py PROGRAM. Prints each test that fails, and `N passed, M failed` last.
"""

import os
import subprocess
import sys
import tempfile

TOP = os.path.dirname(os.path.dirname(os.path.dirname(os.path.abspath(__file__))))
sys.path.insert(0, os.path.join(TOP, "tests", "lib"))

import running

EXAMPLES = os.path.join(TOP, "examples")
FAULTY = b'{"version": 1, "agents": []}'
WORDS = (2, "", "the words here are run [FILE] and check [FILE]\n")
UNREAD = (4, "", "cannot read\n")
UNWRITTEN = (4, "cannot write\n")


def example(name):
    with open(os.path.join(EXAMPLES, name), "rb") as file:
        return file.read()


def path(name):
    return os.path.join(EXAMPLES, f"{name}.json")


def cases(room):
    """Each case as what it is, its words, its standard input, and what it is to give."""
    one, other = example("first.json"), example("gone.json")
    report, another = ((0, example(name).decode(), "") for name in ("first.report", "gone.report"))
    ok, fault = (0, "ok\n", ""), (1, "", "refused S4\n")
    bad = os.path.join(room, "faulty.json")
    with open(bad, "wb") as file:
        file.write(FAULTY)
    # the file is read, and not the other plan on standard input
    yield "run of a file", ["run", path("first")], other, report
    yield "check of a file", ["check", path("first")], FAULTY, ok
    yield "run without a file", ["run"], one, report
    yield "check without a file", ["check"], one, ok
    yield "no words", [], other, another
    for word in ("run", "check"):
        yield f"{word} of a faulty file", [word, bad], one, fault
        yield f"{word} of a faulty input", [word], FAULTY, fault
        yield f"{word} of no file", [word, os.path.join(room, "none.json")], one, UNREAD
        yield f"{word} of two files", [word, path("first"), path("gone")], one, WORDS
        yield f"{word} of a file that is no text", [word, b"\xff.json"], one, WORDS
    for word in ("walk", "explain", "trace", "--help", "", b"ru\xff"):
        yield f"the word {word!r}", [word], one, WORDS
    yield "an option", ["run", "--turns", path("first")], one, WORDS


def unwritten(program, words):
    """The status and the text on standard error of a run whose output is full."""
    with open("/dev/full", "wb") as full:
        ran = subprocess.run([program, *words], stdin=subprocess.DEVNULL, stdout=full, stderr=subprocess.PIPE, timeout=running.LIMIT)
    return ran.returncode, ran.stderr.decode()


def main():
    program, count = os.path.abspath(sys.argv[1]), running.Count()
    with tempfile.TemporaryDirectory() as room:
        for what, words, data, want in cases(room):
            count.expect(what, running.answer([program, *words], data), want)
    for word in ("run", "check"):
        count.expect(f"{word}, and the output is full", unwritten(program, [word, path("first")]), UNWRITTEN)
    count.end()


main()
