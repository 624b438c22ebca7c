#!/usr/bin/env python3
"""Random plans and random bytes, for as long as you like: each answer of the program must be that of rules.py. Before them
come the plans that were found wrong once.

Usage: fuzz.py PROGRAM --minutes N [--seed S] [--jobs N] [--keep FOLDER]. N may have a fraction. Prints each answer that
differs, how many trials there were of each kind, and `N passed, M failed` last. What differs is made smaller, as long as
it differs, and kept in FOLDER (fuzz-kept): the small text, the whole one, and what was wanted and got. The trial of a
seed and a number is always the same.

The plans of tests/rows/found come first, with each number of helpers: each `.json` there is asked for what `bytes` are, and
for what `threads` are, or `races` where it has a race. Then there are four kinds of trial:
- `plans`: plans of random_plans.py and third_plans.py, whole and spoiled, checked and run by turns.
- `bytes`: the same with bytes, pieces and words changed, put in, taken out and moved, checked, explained and run by turns.
- `threads`: plans of raceless_plans.py, by turns, in threads, and in threads with helpers beside a watcher.
- `races`: plans of agents that share, in threads beside a watcher. What their report says is not known, but that each agent
  is there, and that the cluster's totals add up.
"""

import argparse
import collections
import glob
import json
import multiprocessing
import os
import random
import re
import sys
import time

TOP = os.path.dirname(os.path.dirname(os.path.dirname(os.path.abspath(__file__))))
sys.path.insert(0, os.path.join(TOP, "tests", "lib"))

import raceless_plans
import racing
import random_plans
import rules
import running
import third_plans
import threads
from shrinking import shrunk

FOUND = os.path.join(TOP, "tests", "rows", "found")
AUDITS = 20  # of a plan that was found
PIECES = [
    b"{", b"}", b"[", b"]", b",", b":", b'"', b"\\", b"null", b"true", b"0", b"-", b"-0", b"1e3", b".5", b"9" * 30, b"1" * 400,
    b'"on"', b'"run"', b'"name"', b'"callbacks"', b'"jobs"', b'"version"', b'"agents"', b"[]", b"{}", b'["collect"]', b" ",
    b"\n", b"\t", b"\x00", b"\x7f", b"\xff", b"\xc3\xa9", b"\xef\xbb\xbf", b"\\u0061", b"\\ud800", b"\\n",
    b'["say","a"],', b'{"run":[]},',
]  # fmt: skip
TOTALS = re.compile(
    r"cluster\nblocks (\d+) released (\d+)\nmessages posted (\d+) taken (\d+) drained (\d+)\n\Z"
)


def changed_once(rng, data):
    """The bytes with one change."""
    at, size = rng.randint(0, len(data)), rng.choice([1, 1, 1, 2, 3, 8, 40, 300])
    before, piece, after = data[:at], data[at : at + size], data[at + size :]
    to = rng.randint(0, len(data))
    kind = rng.randrange(8)
    if kind == 0:
        return before + after
    if kind == 1:
        return before + bytes([rng.randrange(256)]) + after
    if kind == 2:
        return before + rng.choice(PIECES) + piece + after
    if kind == 3:
        return before + rng.choice(PIECES) + after
    if kind == 4:
        return data[:to] + piece + data[to:]
    if kind == 5:
        return before + piece * rng.choice([2, 3, 20]) + after
    words = list(re.finditer(rb'"[a-z]*"|-?\d+|null|true|false', data))
    if not words:
        return before
    word, other = rng.choice(words), rng.choice(words)
    put = other[0] if kind == 6 else rng.choice(PIECES)
    return data[: word.start()] + put + data[word.end() :]


def changed(rng, data):
    for _ in range(rng.choice([1, 1, 2, 3, 6])):
        data = changed_once(rng, data)
    return data


def written(rng, plan):
    """A plan as bytes, in one of the ways in which plans are written."""
    if rng.random() < 0.3:
        plan = random_plans.reordered(rng, plan)
    data = json.dumps(plan, indent=rng.choice([None, None, None, 1])).encode()
    # by way of its value
    return data.replace(b'"name"', b'"n\\u0061me"') if rng.random() < 0.2 else data


def checked(data):
    """What `check` answers by the rules."""
    try:
        rules.read_plan(data)
        return 0, "ok\n", ""
    except rules.Refused as refused:
        return 1, "", f"{refused}\n"


def explained(program, data):
    """The code that `explain` says, or `ok`, as the rules have it; or all that it said where it ended as it may not."""
    status, out, errors = running.answer([program, "explain"], data)
    first = re.match(r'(ok|S\d+)( "| line \d+ column \d+\n|\n)', out)
    return (status, first[1]) if first and not errors and status in (0, 1) else (status, out, errors)


def code_of(want):
    """What `explain` is to say where `check` answers this."""
    return (0, "ok") if want[0] == 0 else (1, re.match(r"refused (S\d+)", want[2])[1])


def by_turns(program, data):
    """Each thing that a plan is asked for: its name, what it is to be, and what it is."""
    want = checked(data)
    yield "check", want, running.unwarned(running.answer([program, "check"], data))
    yield "explain", code_of(want), explained(program, data)
    yield "run --turns", rules.answer(data), running.answer([program, "run", "--turns"], data)


def in_threads(helpers, audits):
    """The ways in which a plan runs in threads, and what is told of the audits."""
    words = ["--helpers", str(helpers)]
    return [(words, ""), ([*words, "--watch", str(audits)], f"audits {audits}\n")]


def without_races(program, data, ways):
    want = rules.answer(data)
    yield "run --turns", want, running.answer([program, "run", "--turns"], data)
    for options, told in ways:
        wanted = (*want[:2], told) if want[0] == 0 else want
        yield " ".join(["run", *options]), wanted, running.answer([program, "run", *options], data)


def with_races(program, data, ways):
    """A run of which not all is known: what is is put into what it is to be."""
    want = rules.answer(data)
    for options, told in ways:
        got = running.answer([program, "run", *options], data)
        if want[0] != 0:
            yield " ".join(["run", *options]), want, got
            continue
        totals = TOTALS.search(got[1]) if got[0] == 0 else None
        blocks, released, posted, taken, drained = map(int, totals.groups()) if totals else (0, 1, 0, 0, 0)
        said = re.findall(r"^agent .*|^end live", got[1], re.MULTILINE)
        known = re.findall(r"^agent .*|^end live", want[1], re.MULTILINE)
        wanted = (0, True, True, known, told)
        yield " ".join(["run", *options]), wanted, (got[0], blocks == released, posted == taken + drained, said, got[2])


def has_race(data):
    """Whether two agents of a plan race for a word; one with a fault has no run."""
    try:
        plan = rules.read_plan(data)
    except rules.Refused:
        return False
    return any(racing.races(racing.by_turns(plan).accesses()))


def in_each_way(program, data):
    """What a plan is asked for of which nothing but its text was kept."""
    yield from by_turns(program, data)
    asked = with_races if has_race(data) else without_races
    yield from asked(program, data, [way for helpers in threads.HELPERS for way in in_threads(helpers, AUDITS)])


def trial(seed, number):
    """The kind of a trial, its bytes, and what it asks a program for."""
    rng = random.Random(f"{seed} {number}")
    kind = rng.choices(["plans", "bytes", "threads", "races"], [30, 35, 25, 10])[0]
    if kind == "plans":
        return kind, third_plans.text_of_any(rng), by_turns
    if kind == "bytes":
        return kind, changed(rng, third_plans.text_of_any(rng)), by_turns
    plan = raceless_plans.random_plan(rng) if kind == "threads" else random_plans.shared_plan(rng)
    if kind == "races" and rng.random() < 0.3:
        plan = third_plans.in_variables(rng, plan)
    data, ways = written(rng, plan), in_threads(rng.choice(threads.HELPERS), rng.choice(threads.AUDITS))
    asked = without_races if kind == "threads" else with_races
    return kind, data, lambda program, data: asked(program, data, ways)


def differences(program, data, asked):
    """What differs: the names of what was asked for, and what was wanted and got."""
    return {name: (want, got) for name, want, got in asked(program, data) if want != got}


def kept(folder, title, program, data, asked, found):
    """Keeps what differs, made smaller."""

    def shows(text):
        # in threads it may show now and then alone
        return any(found.keys() & differences(program, text, asked).keys() for _ in range(1 if asked is by_turns else 5))

    small = shrunk(data, shows)
    differs = differences(program, small, asked) or found
    os.makedirs(folder, exist_ok=True)
    said = "".join(f"{name}\n  wanted {want}\n  got {got}\n" for name, (want, got) in differs.items())
    for ending, content in ((".json", small), (".whole", data), (".txt", said.encode())):
        with open(os.path.join(folder, title + ending), "wb") as file:
            file.write(content)
    return f"{title}: {small!r}\n{said}"


def tried(given, title, data, asked):
    """What of a trial differs, which is printed and kept; or nothing."""
    found = differences(given.program, data, asked)
    if not found:
        return []
    said = kept(given.keep, title, given.program, data, asked, found)
    print(said, flush=True)
    return [said]


def try_found(given):
    """Trials of the plans that were found wrong once: how many there were, and what differs."""
    kinds, faults = collections.Counter(), []
    for path in sorted(glob.glob(os.path.join(FOUND, "*.json"))):
        with open(path, "rb") as file:
            faults += tried(given, f"found-{os.path.basename(path).removesuffix('.json')}", file.read(), in_each_way)
        kinds["found"] += 1
    return kinds, faults


def try_some(given, first, until):
    """Trials of every so manieth number until a time: how many there were of each kind, and what differs."""
    kinds, faults, number = collections.Counter(), [], first
    while time.monotonic() < until or number == first:
        kind, data, asked = trial(given.seed, number)
        faults += tried(given, f"{given.seed}-{number}", data, asked)
        kinds[kind] += 1
        number += given.jobs
    return kinds, faults


def main():
    words = argparse.ArgumentParser(description=__doc__, formatter_class=argparse.RawDescriptionHelpFormatter)
    words.add_argument("program", metavar="PROGRAM", type=os.path.abspath)
    words.add_argument("--minutes", type=float, required=True, metavar="N")
    words.add_argument("--seed", default=str(random.SystemRandom().randrange(10**9)), metavar="S")
    words.add_argument("--jobs", type=int, default=1, metavar="N")
    words.add_argument("--keep", default="fuzz-kept", metavar="FOLDER")
    given = words.parse_args()
    until = time.monotonic() + given.minutes * 60
    parts = [try_found(given)]
    with multiprocessing.Pool(given.jobs) as pool:
        parts += pool.starmap(try_some, [(given, first, until) for first in range(given.jobs)], 1)
    kinds = sum((kinds for kinds, _ in parts), collections.Counter())
    failed = sum(len(faults) for _, faults in parts)
    print(f"seed {given.seed}, trials: " + ", ".join(f"{kind} {number}" for kind, number in sorted(kinds.items())))
    print(f"{kinds.total() - failed} passed, {failed} failed")
    raise SystemExit(1 if failed else 0)


if __name__ == "__main__":
    main()
