#!/usr/bin/env python3
"""Small plans whose agents wait and notify at the same words, in threads: each report is one that some order of turns gives.

Usage: waking.py PROGRAM COUNT SEED [--runs N] [--jobs N]. COUNT random plans of waking_orders.py, N of them at a time (1). Of
each, all reports that it may have are found by the second implementation, and then the program runs it: once by turns, whose
report must be that of rules.py, and N times (6) in threads, every third time beside a watcher, with a report that may be.
Prints each plan that is answered otherwise, how many plans may have several reports and how many had several here, and
`N passed, M failed` last.
"""

import argparse
import functools
import json
import multiprocessing
import os
import random
import sys

TOP = os.path.dirname(os.path.dirname(os.path.dirname(os.path.abspath(__file__))))
sys.path.insert(0, os.path.join(TOP, "tests", "lib"))

import rules
import running
import waking_orders


def tried(program, runs, seed, number):
    """What is to be printed of a plan, whether it may have several reports, and how many it had in threads."""
    plan = waking_orders.plan(random.Random(f"{seed} {number}"))
    data = json.dumps(plan).encode()
    want, reports = rules.answer(data), waking_orders.reports_of(rules.read_plan(data))
    said, shown = "", set()
    got = running.unwarned(running.answer([program, "run", "--turns"], data))
    if got != want or want[1] not in reports:
        said += f"plan {number} of seed {seed} by turns: {data!r}\n  wanted {want}\n  got {got}\n"
    for run in range(runs):
        watched = ["--watch", "5"] if run % 3 == 2 else []
        status, report, _ = running.answer([program, "run", *watched], data)
        shown.add(report)
        if status != 0 or report not in reports:
            said += f"plan {number} of seed {seed} in threads: {data!r}\n  got {report!r}, status {status}\n"
    return said.rstrip("\n"), len(reports) > 1, len(shown)


def main():
    words = argparse.ArgumentParser(description=__doc__, formatter_class=argparse.RawDescriptionHelpFormatter)
    words.add_argument("program")
    words.add_argument("count", type=int)
    words.add_argument("seed", type=int)
    words.add_argument("--runs", type=int, default=6)
    words.add_argument("--jobs", type=int, default=1)
    given = words.parse_args()
    trial = functools.partial(tried, given.program, given.runs, given.seed)
    failed = several = shown = 0
    with multiprocessing.Pool(given.jobs) as pool:
        for said, is_open, had in pool.imap_unordered(trial, range(given.count), 5):
            several, shown = several + is_open, shown + (had > 1)
            if said:
                failed += 1
                print(said, flush=True)
    print(f"{several} of {given.count} plans may have several reports, and {shown} had several here")
    print(f"{given.count - failed} passed, {failed} failed")
    return 1 if failed else 0


if __name__ == "__main__":
    sys.exit(main())
