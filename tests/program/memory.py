#!/usr/bin/env python3
"""Runs in little memory: one that does not fit ends as `out of memory`, with nothing written, and never by a signal.

Usage: memory.py PROGRAM [--long] [--show]. Prints each run that ends otherwise, and `N passed, M failed` last.

The address space of a run is bounded, as by `ulimit -v`: what the program maps, its threads' stacks among it. Plans that
fit and plans that do not are run by turns, in threads, in threads with helpers, and watched, in spaces of 64 to 512 MB.
Then the bound is moved in small steps from where a run can just begin to where it fits, so that memory ends at each place
in turn: while the plan is read, while threads are made, in the midst of events, in a collection. For texts of deep nesting,
which take the most of the stack, the steps are single pages. With --long the steps are
smaller, and the plans are all of limit_plans.py, at their whole limits. These are too large for rules.py, so their report
is that of a run by turns in all of the machine's memory. It takes some ten minutes. `--show` prints how many runs of each
plan were out of memory.
"""

import argparse
import functools
import json
import os
import random
import resource
import sys

TOP = os.path.dirname(os.path.dirname(os.path.dirname(os.path.abspath(__file__))))
sys.path.insert(0, os.path.join(TOP, "tests", "lib"))

import limit_plans
import marking_helpers
import rules
import running

MB = 1 << 20
SPACES = [64, 128, 256, 512]
PAGE = 4096
PAGES = 40
STEPS = 40
MORE_STEPS = 100
QUADRATIC = "deletes from the first"  # it takes half a minute at its whole limit
LIGHT = ["small heaps", "ring", "skips"]  # of which a hundredth takes no more memory than nothing
ALL_WAYS = [["--turns"], [], ["--helpers", "8"], ["--watch", "20", "--helpers", "3"]]


def bounded(size):
    """What a child does first whose address space has so many bytes."""
    return functools.partial(resource.setrlimit, resource.RLIMIT_AS, (size, size))


class Trying:
    """Runs plans in bounded spaces, and counts what came of them."""

    def __init__(self, program):
        self.program, self.count, self.shown = program, running.Count(), {}

    def run(self, what, words, data, size, want):
        """Whether the run fits into so many bytes; it is out of memory, or has this answer, or it has failed."""
        got = running.answer([self.program, *words], data, preexec_fn=bounded(size))
        fits = got == want
        fault = None if fits or got == running.OUT_OF_MEMORY else got
        self.count.add(f"{what} in {size / MB:.3f} MB", fault)
        fitted, short = self.shown.get(what, (0, 0))
        self.shown[what] = fitted + fits, short + (not fits)
        return fits

    def in_spaces(self, name, data, report):
        """Runs a plan in each way and in each space."""
        for options in ALL_WAYS:
            audits = f"audits {options[1]}\n" if "--watch" in options else ""
            for space in SPACES:
                what = " ".join([name, *options])
                self.run(what, ["run", *options], data, space * MB, (0, report, audits))

    def least(self, words, data, want, most):
        """The least space, within a page or so, into which a run fits that fits into the most."""
        low, high = 0, most
        while high - low > PAGE:
            middle = (low + high) // 2
            fits = running.answer([self.program, *words], data, preexec_fn=bounded(middle)) == want
            low, high = (low, middle) if fits else (middle, high)
        return high

    def page_by_page(self, what, words, data, want):
        """Moves the bound by single pages up to where the run fits, so that the stack's last growth is refused too."""
        fits = self.least(words, data, want, 2048 * MB) // PAGE * PAGE
        for pages in range(-PAGES, 4):
            self.run(what, words, data, fits + pages * PAGE, want)

    def in_steps(self, name, data, report, steps):
        """Moves the bound from where a run can begin, by a plan of which nothing comes, to where this one fits."""
        nothing = limit_plans.alone([])
        for options in ALL_WAYS:
            audits = f"audits {options[1]}\n" if "--watch" in options else ""
            words, want = ["run", *options], (0, report, audits)
            # where the stack begins is not the same from run to run
            begins = self.least(words, nothing, (0, rules.answer(nothing)[1], audits), 64 * MB) + PAGES * PAGE
            fits = self.least(words, data, want, 2048 * MB)
            what = f"{name}, in steps, {' '.join(words)}"
            for step in range(steps + 1):
                self.run(what, words, data, begins + (fits - begins) * step // steps, want)
            self.count.add(what, None if self.shown[what][1] >= steps // 8 else f"{self.shown[what]} fitted and did not")


def known(make, number):
    """A plan and its report by the rules."""
    data = make(number)
    return data, rules.answer(data)[1]


def told(program, make, number):
    """A plan that is too large for rules.py, and the report of its run by turns."""
    data = make(number)
    status, report, _ = running.answer([program, "run", "--turns"], data)
    return data, report if status == 0 else "no report in all memory"


def many(jobs):
    """A plan of so many jobs of 10,000 commands, and its report: it is too large for rules.py."""
    job = b'{"run":[' + b",".join([b'["copy","x","y"]'] * limit_plans.LONGEST) + b"]}"
    data = b'{"version":1,"agents":[{"name":"a","callbacks":{},"jobs":[' + b",".join([job] * jobs) + b"]}]}"
    return data, rules.answer(limit_plans.alone([]))[1]


def heap(number):
    pieces = list(marking_helpers.heap(random.Random(f"memory {number}")))
    return json.dumps(marking_helpers.plan_of(pieces)).encode()


def main():
    words = argparse.ArgumentParser(description=__doc__, formatter_class=argparse.RawDescriptionHelpFormatter)
    words.add_argument("program", metavar="PROGRAM", type=os.path.abspath)
    words.add_argument("--long", action="store_true")
    words.add_argument("--show", action="store_true")
    given = words.parse_args()
    trying = Trying(given.program)
    plans = limit_plans.PLANS
    chosen = ["identities", "posts", "blocks", "eight agents"] + (list(plans) if given.long else [])
    # 160 bytes a command, so that the one fits into 256 MB, and the other not into 512
    trying.in_spaces("many commands", *many(400 if given.long else 80))
    for name in dict.fromkeys(chosen):
        make, most = plans[name]
        if given.long and name != QUADRATIC:
            trying.in_spaces(name, *told(given.program, make, most))
        else:
            trying.in_spaces(name, *known(make, most // 4))
    for name in dict.fromkeys(chosen):
        make, most = plans[name]
        part = most if name in LIGHT else max(most // 100, 8)
        trying.in_steps(name, *known(make, part), MORE_STEPS if given.long else STEPS)
    for opened, closed in (b'{"a":', b"}"), (b"[", b"]"):
        data = b'{"version":1,"agents":["' + b"a" * MB + b'",' + opened * 120 + b"1" + closed * 120 + b"]}"
        for word in ("check", "run"):
            trying.page_by_page(f"deep {opened.decode()}, {word}", [word], data, (1, "", "refused S2\n"))
    trying.in_steps("a heap", *known(heap, 1), MORE_STEPS if given.long else STEPS)
    if given.show:
        for what, (fitted, short) in trying.shown.items():
            print(f"{what}: {fitted} fitted, {short} were out of memory")
    trying.count.end()


if __name__ == "__main__":
    sys.exit(main())
