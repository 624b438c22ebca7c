#!/usr/bin/env python3
"""Races: what `clusterrun check --races` says of plans, and that a plan without one has one report in threads.

Usage: races.py PROGRAM [--plans N] [--seed S] [--part K/N] [--jobs N]
       races.py --without-program [..]
The gate runs 300 plans. --part K/N makes those plans whose number is K-1 modulo N, and --jobs N so many at a time; the plan
of a seed and a number is always the same. Without the program all is tried by rules.py alone. Prints each fault, how
many plans were of what kind, and `N passed, M failed` last.

First come the rows of races.txt, by hand: they are as those of scripts.py, and have a line `no race`; or lines
`race: ONE; OTHER` for all accesses that race, of which the program tells some two, and `two reports` or
`one report: WHY`; or `refused: FAULT`. The examples are next, and then random plans of racing_plans.py. Which accesses
race says racing.py, in the run by turns of rules.py.

- The program says `no race` of those without one. Where it tells a race, the two accesses race, and their places and
  commands are right.
- Without a race the report in threads, several times, and beside a watcher is the one by turns, and so it is by random
  lists of turns in rules.py.
- With a race two lists of turns are looked for which have two reports: some in which the later of two racing accesses
  comes first, then random ones. If none is found, all orders of the accesses to each word that is raced for are gone
  through (racing_orders.py): they lead to two lists of turns that have two reports, or say why there is one. Of a part of
  the others they are gone through too, and have to show a word by which two reports differ.
- In all lists of turns the agents do the same, but for the words that they read.
"""

import argparse
import collections
import functools
import glob
import multiprocessing
import os
import random
import sys

TOP = os.path.dirname(os.path.dirname(os.path.dirname(os.path.abspath(__file__))))
sys.path.insert(0, os.path.join(TOP, "tests", "lib"))

import racing
import racing_orders
import racing_plans
import rules
import running
import scripts

ROWS = os.path.join(TOP, "tests", "rows", "races.txt")
EXAMPLES = os.path.join(TOP, "examples")
# what is said of the only example in which two agents race
RACING = ("races.json", "race\nmain, job 1, command 3: store b 0 7\nworker, job 1, command 1: load x m 0\n")
PAIRS = 10  # of so many racing pairs the later one is let come first
LISTS = 10  # random lists of turns
RUNS = 3  # in threads
SHARE = 8  # of so many plans with two reports all orders of one are gone through
TWO = "two reports"


def texts_of(run):
    """All that may be written of a run by turns."""
    return [*map(racing.text_of, racing.races(run.accesses()))] or [racing.text_of(None)]


# The rows


class Row(scripts.Row):
    """A plan and what is said of its races."""

    def __init__(self, title):
        super().__init__(title)
        self.pairs, self.refused, self.why = [], None, None

    def add(self, line):
        head, _, rest = line.partition(": ")
        match head:
            case "no race":
                self.why = "no race"
            case "race":
                self.pairs.append("\n".join(["race", *rest.split("; "), ""]))
            case "refused":
                self.refused = f"refused {rest}\n"
            case "two reports":
                self.why = TWO
            case "one report":
                self.why = rest
            case _:
                super().add(line)

    def answers(self):
        """What the program may answer."""
        if self.refused:
            return [(1, "", self.refused)]
        return [(0, text, "") for text in self.pairs or ["no race\n"]]

    def by_rules(self):
        """All that it may be by the rules, and why it has one report."""
        try:
            plan = rules.read_plan(self.plan())
        except rules.Refused as refused:
            return [(1, "", f"{refused}\n")], None
        run = racing.by_turns(plan)
        return [(0, text, "") for text in texts_of(run)], why_of(plan, run)


def why_of(plan, run):
    """Why a plan has one report, or that it has two."""
    try:
        kinds = racing_orders.Raced(plan, run).kinds()
    except AssertionError as wrong:
        return str(wrong)
    return TWO if kinds is None else "; or ".join(sorted({*kinds.values()})) or "no race"


def try_rows(program, count):
    for row in scripts.rows_of(ROWS, Row):
        answers, why = row.by_rules()
        count.expect(f"{row.title}, by rules.py", (sorted(answers), why), (sorted(row.answers()), row.why))
        if program:
            got = running.answer([program, "check", "--races"], row.plan())
            count.add(row.title, None if got in row.answers() else f"wanted one of {row.answers()}\n  got {got}")


def try_examples(program, count):
    """The examples, of which one alone has a race."""
    for path in sorted(glob.glob(os.path.join(EXAMPLES, "*.json"))):
        with open(path, "rb") as file:
            data = file.read()
        name = os.path.basename(path)
        text = RACING[1] if name == RACING[0] else "no race\n"
        count.expect(f"{name}, by rules.py", texts_of(racing.by_turns(rules.read_plan(data))), [text])
        if program:
            count.expect(name, running.answer([program, "check", "--races", path]), (0, text, ""))


# Random plans


class Trial:
    """A random plan, what kind it is found to be, and what is wrong."""

    def __init__(self, program, seed, number):
        self.program, self.number, self.title = program, number, f"plan {number} of seed {seed}"
        self.rng = random.Random(f"{seed} {number}")
        self.data, self.plan = racing_plans.random_plan(self.rng)
        self.run = racing.by_turns(self.plan)
        self.report, self.outline = self.run.report(), self.run.outline()
        self.kinds, self.faults = [], []

    def expect(self, what, got, want):
        if got != want:
            self.faults.append(f"{what}: wanted {want!r}\n  got {got!r}")

    def made(self):
        self.expect("by turns", self.report, rules.report(self.plan))
        pairs = [*racing.races(self.run.accesses())]
        if self.program:
            self.told()
        if pairs:
            self.kinds = ["race", *self.raced()]
            self.kinds += ["race in a callback"] * any("callback" in racing.text_of(pair) for pair in pairs)
        else:
            self.kinds = ["no race"] + ["no race, and words that agents share"] * racing.shares(self.run.accesses())
            self.alike()

    def told(self):
        got, texts = self.asked("check", "--races"), texts_of(self.run)
        if got[0] != 0 or got[1] not in texts or got[2] != "":
            self.faults.append(f"check --races: wanted one of {texts}\n  got {got}")

    def asked(self, *words):
        return running.answer([self.program, *words], self.data)

    def alike(self):
        """All runs of a plan without a race have one report."""
        for _ in range(LISTS):
            run = racing.Cluster(self.plan).play(racing.at_random(self.rng))
            self.expect("by a list of turns", (run.report(), run.outline()), (self.report, self.outline))
        if self.program:
            want = (0, self.report, "")
            self.expect("run --turns", self.asked("run", "--turns"), want)
            for _ in range(RUNS):
                self.expect("run", self.asked("run"), want)
            helpers = str(self.rng.choice([1, 2, 3]))
            got = self.asked("run", "--watch", "20", "--helpers", helpers)
            self.expect(f"run --watch 20 --helpers {helpers}", got, (0, self.report, "audits 20\n"))

    def raced(self):
        """How many reports it has, and how they were found, or why there is one."""
        raced = racing_orders.Raced(self.plan, self.run)
        found = self.found(raced)
        if found and self.number % SHARE:
            return [TWO, f"two reports, {found}"]
        try:
            whys = raced.kinds()
        except racing_orders.TooMany:
            if not found:
                self.faults.append("no two reports were found, and there are too many orders")
            return [TWO, f"two reports, {found}"] if found else []
        if whys is None:
            return [TWO, f"two reports, {found or 'worked out'}"]
        if found:
            self.faults.append(f"two reports were found, and all orders have one: {whys}")
        return ["one report", "one report: " + "; or ".join(sorted({*whys.values()}))]

    def found(self, raced):
        """How two reports were found, if they were."""
        if raced.directed(PAIRS):
            return "the later access first"
        for _ in range(LISTS):
            run = racing.Cluster(self.plan).play(racing.at_random(self.rng))
            self.expect("by a list of turns", run.outline(), self.outline)
            if run.report() != self.report:
                return "by a random list"
        return None

    def said(self):
        return "".join(f"{self.title}: {fault}\n  {self.data!r}\n" for fault in self.faults)


def try_plan(program, seed, number):
    """The kinds of a plan, and what is to be printed of it."""
    trial = Trial(program, seed, number)
    try:
        trial.made()
    except AssertionError as wrong:
        trial.faults.append(wrong)
    return trial.kinds, trial.said()


def try_plans(given, count):
    first, parts = map(int, given.part.split("/"))
    numbers = range(first - 1, given.plans, parts)
    kinds, trial = collections.Counter(), functools.partial(try_plan, given.program, given.seed)
    with multiprocessing.Pool(given.jobs) as pool:
        for number, (found, said) in zip(numbers, pool.imap(trial, numbers, 5)):
            kinds.update(found)
            print(said, end="", flush=True)
            count.add(f"plan {number}", said.split("\n")[0])
    print(f"of {len(numbers)} plans of seed {given.seed}:")
    for kind, number in sorted(kinds.items()):
        print(f"  {kind} {number}")


def main():
    words = argparse.ArgumentParser(description=__doc__, formatter_class=argparse.RawDescriptionHelpFormatter)
    words.add_argument("program", nargs="?", metavar="PROGRAM", type=os.path.abspath)
    words.add_argument("--without-program", action="store_true")
    words.add_argument("--plans", type=int, default=300, metavar="N")
    words.add_argument("--seed", type=int, default=1, metavar="S")
    words.add_argument("--part", default="1/1", metavar="K/N")
    words.add_argument("--jobs", type=int, default=1, metavar="N")
    given = words.parse_args()
    if (given.program is None) != given.without_program:
        words.error("either PROGRAM or --without-program")
    count = running.Count()
    try_rows(given.program, count)
    try_examples(given.program, count)
    try_plans(given, count)
    count.end()


if __name__ == "__main__":
    main()
