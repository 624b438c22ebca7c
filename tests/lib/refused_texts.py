"""Texts and what `check` answers to them, worked out by hand from the format: those in tests/rows/refusals, and here those
that a line of a file cannot hold, or that are many."""

import glob
import os

TOP = os.path.dirname(os.path.dirname(os.path.dirname(os.path.abspath(__file__))))
SMALL = b'{"version":1,"agents":[{"name":"a","callbacks":{},"jobs":[]}]}'


def tables():
    """Each text of the files, with its answer."""
    for path in sorted(glob.glob(os.path.join(TOP, "tests", "rows", "refusals", "*.txt"))):
        before = after = ""
        with open(path, encoding="utf-8", newline="\n") as lines:
            for line in lines:
                if line.startswith("# "):
                    continue
                parts = line.rstrip("\n").split("\t")
                if parts[0] == "around":
                    _, before, after = parts
                elif len(parts) == 5:
                    answer, first, part, times, last = parts
                    yield (first + part * int(times) + last).encode(), answer
                else:
                    answer, text = parts
                    yield (before + text + after).encode(), answer


def unwritten():
    """Nothing, controls, and bytes that are no UTF-8."""
    yield b"", "refused S1"
    yield b" ", "refused S1"
    yield b"\xef\xbb\xbf" + SMALL, "refused S1"
    yield SMALL.replace(b'"a"', b'"a\n"'), "refused S1"
    yield b" \t\r\n" + SMALL + b" \t\r\n", "ok"
    # No byte of UTF-8, one that goes on, a letter cut short, one too long, a surrogate, one too high.
    for wrong in (b"\xff", b"\x80", b"\xc3", b"\xc0\xaf", b"\xed\xa0\x80", b"\xf4\x90\x80\x80"):
        yield SMALL.replace(b'"a"', b'"' + wrong + b'"'), "refused S1"


def beginnings():
    """A plan, and each proper beginning of it."""
    for end in range(len(SMALL)):
        yield SMALL[:end], "refused S1"
    yield SMALL, "ok"


def many_callbacks():
    """An agent has 1,000 callbacks at most."""
    for empty, last, answer in (
        (999, '"d":[]', "ok"),
        (999, '"d":[["x"]]', "refused S7 agent 0 callback 1000 command 1"),
        (1000, '"d":[]', "refused S10 agent 0"),
        (1000, '"1":[["x"]]', "refused S10 agent 0"),
    ):
        members = "".join(f'"c{number}":[],' for number in range(empty)) + last
        yield SMALL.replace(b'"callbacks":{}', f'"callbacks":{{{members}}}'.encode()), answer
