#!/usr/bin/env python3
"""Plans at the limits, and long texts: each ends within seconds, and takes time in proportion to its number.

Usage: limits.py PROGRAM [NAME..] [--whole] [--show]. Prints what takes longer or answers otherwise, and
`N passed, M failed` last. The gate tries long texts and a part of each plan's limit; `--whole` tries all of it, which takes
some minutes and some GB of memory, and the largest plan that one agent may have. `--show` prints the processors' times. The
plans are made by limit_plans.py; NAME chooses some of them.

Each plan is run for its number and for a sixteenth of it, and the time of the processors is compared, which other work on
the machine does not take. The least of a few runs counts. What takes time in proportion to its number takes 16 times as
long, and somewhat more where memory is slow; what takes time in proportion to the square would take 256 times as long. MOST
lies between them. At a small number the answer must be that of rules.py.
Some plans take more than their number by what they do; of them it is asked alone that they end within SECONDS. Which they
are stands in docs/PLANS.md, under "How long it takes".
"""

import argparse
import os
import resource
import subprocess
import sys
import tempfile

TOP = os.path.dirname(os.path.dirname(os.path.dirname(os.path.abspath(__file__))))
sys.path.insert(0, os.path.join(TOP, "tests", "lib"))

import limit_plans
import rules
import running

FEWER = 16  # the number of the smaller plan is this part of the larger's
MOST = 64  # how many times as long the larger may take
LEAST = 0.04  # seconds below which times say little
TRIES = 6
SECONDS = 60
PART = 8  # the gate tries this part of a limit
SMALL = 64  # and compares the answer at this part of it with that of rules.py
AGENTS = {"posts", "posted blocks", "eight agents", "ring", "skips"}  # what has several agents
# what takes more than its number
MORE = {"deletes from the first", "small heaps"}


class Room:
    """A folder for plans, and the program that runs them."""

    def __init__(self, program, folder):
        self.program, self.path = program, os.path.join(folder, "plan.json")

    def seconds(self, data, words):
        """The seconds of processors that a run takes, and its status and last line."""
        with open(self.path, "wb") as file:
            file.write(data)
        before = resource.getrusage(resource.RUSAGE_CHILDREN)
        ran = subprocess.run([self.program, *words, self.path], capture_output=True, timeout=10 * SECONDS, check=False)
        after = resource.getrusage(resource.RUSAGE_CHILDREN)
        last = (ran.stdout or ran.stderr).decode().rsplit("\n", 2)[-2:]
        return after.ru_utime + after.ru_stime - before.ru_utime - before.ru_stime, (ran.returncode, last)


def compared(room, small, large, words, tries):
    """The least times of a few runs of two plans, and how the second ended: as many runs as it takes until they are in
    proportion, `tries` at most."""
    fewest, most = float("inf"), float("inf")
    for _ in range(tries):
        seconds, ended = room.seconds(large, words)
        most = min(most, seconds)
        fewest = min(fewest, room.seconds(small, words)[0])
        if most < MOST * max(fewest, LEAST):
            break
    return fewest, most, ended


def try_growth(room, count, name, made, words, show):
    """Compares the times at two numbers."""
    small, large = made
    fewest, most, ended = compared(room, small, large, words, 1 if name in MORE else TRIES)
    what = f"{name}, {' '.join(words)}"
    if show:
        times = f"{fewest:.2f} s, {most:.2f} s, {most / max(fewest, LEAST):.1f} times"
        print(f"{what}: {len(large) / 1e6:.1f} MB, {times}", flush=True)
    fault = None
    if most > SECONDS or (name not in MORE and most >= MOST * max(fewest, LEAST)):
        fault = f"{fewest:.3f} seconds for a sixteenth, {most:.3f} for all"
    if ended[0] not in (0, 1):
        fault = f"ended with {ended}"
    count.add(what, fault)


def ways_of(name):
    if name in limit_plans.TEXTS:
        return [["check"], ["explain"]]
    return [["run", "--turns"], ["run"], ["run", "--watch", "1000"]] if name in AGENTS else [["run", "--turns"]]


def try_answer(program, count, name, data):
    """Compares a small plan's answers with those of rules.py."""
    want = rules.answer(data)
    for words in [way for way in ways_of(name) if way[0] == "run"] or [["run"]]:
        told = "audits 1000\n" if "--watch" in words and want[0] == 0 else want[2]
        count.expect(f"{name}, small, {' '.join(words)}", running.answer([program, *words], data), (*want[:2], told))


def largest(room, count):
    """1,000 jobs of 10,000 commands."""
    job = b'{"run":[' + b",".join([b'["copy","x","y"]'] * 10000) + b"]}"
    data = b'{"version":1,"agents":[{"name":"a","callbacks":{},"jobs":[' + b",".join([job] * 1000) + b"]}]}"
    for words in (["check"], ["run", "--turns"], ["run"]):
        seconds, ended = room.seconds(data, words)
        wrong = ended[0] != 0 or seconds > SECONDS
        print(f"10,000,000 commands, {' '.join(words)}: {len(data) / 1e6:.1f} MB, {seconds:.2f} s", flush=True)
        count.add(f"10,000,000 commands, {' '.join(words)}", f"{seconds} seconds, {ended}" if wrong else None)


def main():
    words = argparse.ArgumentParser(description=__doc__, formatter_class=argparse.RawDescriptionHelpFormatter)
    words.add_argument("program", metavar="PROGRAM", type=os.path.abspath)
    words.add_argument("names", nargs="*", metavar="NAME")
    words.add_argument("--whole", action="store_true")
    words.add_argument("--show", action="store_true")
    given = words.parse_args()
    count, part = running.Count(), 1 if given.whole else PART
    with tempfile.TemporaryDirectory() as folder:
        room = Room(given.program, folder)
        for name, (make, most) in {**limit_plans.TEXTS, **limit_plans.PLANS}.items():
            if given.names and name not in given.names:
                continue
            try_answer(given.program, count, name, make(max(most // SMALL, 4)))
            most = most if name in limit_plans.TEXTS else most // part
            made = make(max(most // FEWER, 4)), make(most)
            for way in ways_of(name):
                try_growth(room, count, name, made, way, given.show)
        if given.whole and not given.names:
            largest(room, count)
    count.end()


if __name__ == "__main__":
    sys.exit(main())
