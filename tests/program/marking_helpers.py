#!/usr/bin/env python3
"""Plans with large heaps, whose collections mark with helpers: each report must be that of rules.py.

Usage: marking_helpers.py PROGRAM COUNT SEED [--jobs N]. The gate runs 12 of the plans; more of them are run by hand. Prints each
run that differs, how many objects were emptied, and `N passed, M failed` last.

Helpers get a piece each where thousands of identities are to be followed at once, so a plan has that many: an object
with some thousands of others as properties, which lead to each other, and of which many are keys of WeakMaps' entries,
whose values are led to by nothing else (`heap`). Some WeakMaps are led to before their keys, and some after them. A part
of the objects is let go before each of several collections, some are asked for by WeakRefs, and at last all are let go.
Each plan is run with 1, 2, 3 and 8 helpers. One plan more is that of an object with 100,000 others, all of them emptied,
whose report is known.
"""

import argparse
import functools
import json
import multiprocessing
import os
import random
import re
import subprocess
import sys

TOP = os.path.dirname(os.path.dirname(os.path.dirname(os.path.abspath(__file__))))
sys.path.insert(0, os.path.join(TOP, "tests", "lib"))

import rules

HELPERS = [1, 2, 3, 8]
LONGEST = 10000  # the most commands of a job
LIMIT = 120  # the seconds of a run


def heap(rng):
    """The commands of a plan, in lists that are to stand in one job each."""
    count = rng.randint(4500, 9000)
    maps = [f"m{number}" for number in range(rng.randint(1, 6))]
    yield [["new", "p"]] + [["weakmap", name] for name in maps]
    late = [name for name in maps if rng.random() < 0.5]
    watched = []
    for number in range(count):
        made = [["new", "o"], ["set", "p", f"k{number}", "o"]]
        for way in range(rng.choice([0, 0, 1, 1, 2, 4])):
            made += [["get", "x", "p", f"k{rng.randint(0, number)}"], ["set", "o", f"r{way}", "x"]]
        if rng.random() < 0.3:
            made += [["new", "v"], ["set", "v", "back", "o"], ["wmset", rng.choice(maps), "o", "v"]]
            if rng.random() < 0.2:
                made += [["wmset", rng.choice(maps), "v", "p"]]
        if rng.random() < 0.01:
            watched.append(f"w{number}")
            made += [["weakref", watched[-1], "v" if rng.random() < 0.5 and number > 50 else "o"]]
        yield made
    for name in late:
        # led to by the last object alone
        yield [["set", "o", name, name], ["let", name, None]]
    yield [["let", name, None] for name in "xov"]
    for part in (rng.uniform(0, 0.3), rng.uniform(0, 0.9)):
        yield [["delete", "d", "p", f"k{number}"] for number in range(count - 1) if rng.random() < part][:LONGEST]
        yield [["collect"]]
    yield [step for name in watched for step in (["deref", "x", name], ["say", "x"])]
    yield [["let", name, None] for name in ["p", "x"]]
    yield [["collect"]]


def jobs_of(pieces):
    """The pieces, whole, in as few jobs as they have room in; a collection begins a job of its own."""
    jobs = [[]]
    for piece in pieces:
        if len(jobs[-1]) + len(piece) > LONGEST or piece == [["collect"]]:
            jobs.append([])
        jobs[-1] += piece
    return [{"run": job} for job in jobs if job]


def plan_of(pieces):
    return {"version": 1, "agents": [{"name": "a", "callbacks": {}, "jobs": jobs_of(pieces)}]}


def wide(count):
    """An object with so many others as properties, then all are let go."""
    yield [["new", "p"]]
    for number in range(count):
        yield [["new", "o"], ["set", "p", f"k{number}", "o"]]
    yield [["let", "p", None], ["let", "o", None]]
    yield [["collect"]]


def ran(program, data, helpers):
    words = [program, "run", "--helpers", str(helpers)]
    try:
        done = subprocess.run(words, input=data, capture_output=True, timeout=LIMIT, check=False)
    except subprocess.TimeoutExpired:
        return f"no end after {LIMIT} seconds"
    return done.returncode, done.stdout.decode(), done.stderr.decode()


def compare(program, what, data, want):
    """What is to be printed where a number of helpers gives another answer."""
    said = ""
    for helpers in HELPERS:
        got = ran(program, data, helpers)
        if got != (0, want, ""):
            said += f"{what} with {helpers} helpers: wanted {want[:300]!r}\n  got {got[0]!r} {str(got[1:])[:300]}\n"
    return said


def try_plan(program, seed, number):
    rng = random.Random(f"{seed} {number}")
    data = json.dumps(plan_of(heap(rng))).encode()
    want = rules.answer(data)[1]
    emptied = sum(int(number) for number in re.findall(r"^emptied (\d+)$", want, re.MULTILINE))
    return compare(program, f"plan {number} of seed {seed}", data, want), emptied


def main():
    words = argparse.ArgumentParser(description=__doc__, formatter_class=argparse.RawDescriptionHelpFormatter)
    words.add_argument("program", metavar="PROGRAM")
    words.add_argument("count", type=int, metavar="COUNT")
    words.add_argument("seed", type=int, metavar="SEED")
    words.add_argument("--jobs", type=int, default=1, metavar="N")
    given = words.parse_args()
    failed, emptied = 0, 0
    with multiprocessing.Pool(given.jobs) as pool:
        for said, some in pool.imap_unordered(functools.partial(try_plan, given.program, given.seed), range(given.count)):
            emptied += some
            failed += said != ""
            print(said, end="", flush=True)
    end = "end live 0 awaiting 0 unregistered 0 taken 0\ncluster\nblocks 0 released 0\nmessages posted 0 taken 0 drained 0\n"
    want = f"agent a\nemptied 100001\n{end}"
    said = compare(given.program, "an object with 100000 others", json.dumps(plan_of(wide(100000))).encode(), want)
    failed += said != ""
    print(said, end="")
    print(f"of {given.count} plans: {emptied} emptied")
    print(f"{given.count + 1 - failed} passed, {failed} failed")
    sys.exit(1 if failed else 0)


if __name__ == "__main__":
    main()
