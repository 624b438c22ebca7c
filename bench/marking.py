#!/usr/bin/env python3
"""Times one collection by the number of helpers that mark, on four kinds of heaps.

Usage: marking.py [--times N] [--objects N] [NAME ..]. NAME is `random` (each object leads to four others), `wide` (one
object leads to all others), `chain` (each leads to the one before) or `entries` (each is the key of an entry of one
WeakMap, whose value is the next). Each plan is run with 2 collections and with 22 while all is held, in turn, N times each
(3): what a collection takes is a twentieth of the difference of the medians. Prints a table: the milliseconds by turns,
with the plain marker, and in threads with 1, 2, 4 and 8 helpers, and each as a multiple of the first. Where there is node,
its own collection of the same heap is in the last column.
"""

import argparse
import json
import os
import random
import shutil
import statistics
import subprocess
import sys
import tempfile
import time

HERE = os.path.dirname(os.path.abspath(__file__))
PROGRAM = os.path.join(os.path.dirname(HERE), "crates", "clusterrun", "out", "clusterrun")
ENGINE = ["node", "--expose-gc", os.path.join(HERE, "engine.mjs")]
LONGEST = 10000  # the most commands of a job
FEW, MANY = 2, 22  # how many collections


def heap_random(count):
    rng = random.Random(1)
    for number in range(count):
        made = [["new", "o"]]
        for way in range(4):
            made.append(["set", "o", f"r{way}", f"v{rng.randrange(3000)}"])
        yield [*made, ["copy", f"v{rng.randrange(3000) if number >= 3000 else number}", "o"]]


def heap_wide(count):
    yield [["new", "p"]]
    for number in range(count):
        yield [["new", "o"], ["set", "p", f"k{number}", "o"]]


def heap_chain(count):
    for _ in range(count):
        yield [["new", "o"], ["set", "o", "next", "last"], ["copy", "last", "o"]]


def heap_entries(count):
    yield [["weakmap", "m"], ["new", "last"], ["copy", "first", "last"]]
    for _ in range(count):
        yield [["new", "o"], ["wmset", "m", "last", "o"], ["copy", "last", "o"]]


HEAPS = {"random": heap_random, "wide": heap_wide, "chain": heap_chain, "entries": heap_entries}


def jobs_of(name, objects):
    """The commands of the jobs that make the heap."""
    jobs = [[]]
    for piece in HEAPS[name](objects):
        if len(jobs[-1]) + len(piece) > LONGEST:
            jobs.append([])
        jobs[-1] += piece
    return jobs


def plan_of(jobs, version=1):
    """A plan of one agent with these jobs."""
    agent = {"name": "a", "callbacks": {}, "jobs": [{"run": job} for job in jobs]}
    return json.dumps({"version": version, "agents": [agent]}, separators=(",", ":"))


def plan(name, objects, collections):
    return plan_of(jobs_of(name, objects) + [[["collect"]] * collections])


def seconds(words):
    started = time.monotonic()
    subprocess.run(words, stdout=subprocess.DEVNULL, check=True)
    return time.monotonic() - started


def main():
    words = argparse.ArgumentParser(description=__doc__, formatter_class=argparse.RawDescriptionHelpFormatter)
    words.add_argument("names", nargs="*", metavar="NAME")
    words.add_argument("--times", type=int, default=3)
    words.add_argument("--objects", type=int, default=300000)
    words.add_argument("--program", default=PROGRAM)
    given = words.parse_args()
    ways = [("turns", ["--turns"])] + [(str(number), ["--helpers", str(number)]) for number in (1, 2, 4, 8)]
    print("| Heap | " + " | ".join(name for name, _ in ways) + " | node |")
    print("|---|" + "---|" * (len(ways) + 1))
    for name in given.names or HEAPS:
        with tempfile.TemporaryDirectory() as room:
            files = []
            for collections in (FEW, MANY):
                files.append(os.path.join(room, f"{collections}.json"))
                with open(files[-1], "w", encoding="utf-8") as file:
                    file.write(plan(name, given.objects, collections))
            runs = [[given.program, "run", "FILE", *options] for _, options in ways]
            if shutil.which(ENGINE[0]) is not None:
                runs.append([*ENGINE, "run", "FILE"])
            taken = [([], []) for _ in runs]
            for _ in range(given.times):
                for run, both in zip(runs, taken):
                    for file, times in zip(files, both):
                        times.append(seconds([file if word == "FILE" else word for word in run]))
            each = [(statistics.median(many) - statistics.median(few)) / (MANY - FEW) * 1000 for few, many in taken]
            cells = [f"{one:.1f} ({one / each[0]:.2f})" for one in each]
            print(f"| `{name}` | " + " | ".join(cells) + " |", flush=True)


if __name__ == "__main__":
    sys.exit(main())
