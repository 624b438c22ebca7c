#!/usr/bin/env python3
"""Times how long an agent stands still for a later collection, beside one collection at once, on the heaps of marking.py.

Usage: later.py [--times N] [--objects N] [--program FILE] [NAME ..]. Of each heap there are plans of one agent with 2 and
with 22 jobs behind it, while all is held: of one `collect`; of one `collectlater`, at the end of which the agent waits for
the marks; of 9,900 other commands; and of one `collectlater` before these 9,900, which the agent does while a helper marks.
Each plan is run in turn, N times each (3), in threads with one helper and with four, and by turns, where the agent marks by
itself. What a job takes is a twentieth of the difference of the medians. Prints a table in milliseconds: `collect`; the
later collection that the agent waits for; and what the later collection adds to the 9,900 commands, which is the pause at
`collectlater` and the one at the job's end together; and what these commands take.
"""

import argparse
import os
import statistics
import sys
import tempfile

import marking

FEW, MANY = 2, 22  # how many jobs
WORK = 9900  # how many commands the agent does meanwhile
WAYS = {"threads": ["--helpers", "1"], "4 helpers": ["--helpers", "4"], "turns": ["--turns"]}


def work():
    """Commands that take memory of the events' list alone, and change nothing that a collection sees."""
    return [["same", "yes", "first", "first"]] * WORK


KINDS = {
    "collect": [["collect"]],
    "later": [["collectlater"]],
    "work": work(),
    "beside": [["collectlater"], *work()],
}


def plan(heap, objects, kind, count):
    return marking.plan_of(marking.jobs_of(heap, objects) + [KINDS[kind]] * count, version=2)


def medians(program, files, options, times):
    """The median seconds of the runs of each file, in turn."""
    taken = {key: [] for key in files}
    for _ in range(times):
        for key, file in files.items():
            taken[key].append(marking.seconds([program, "run", file, *options]))
    return {key: statistics.median(seconds) for key, seconds in taken.items()}


def measured(program, heap, objects, times):
    """The cells of a heap's lines, one line for each way of running."""
    with tempfile.TemporaryDirectory() as room:
        files = {}
        for kind in KINDS:
            for count in (FEW, MANY):
                files[kind, count] = os.path.join(room, f"{kind}-{count}.json")
                with open(files[kind, count], "w", encoding="utf-8") as file:
                    file.write(plan(heap, objects, kind, count))
        for way, options in WAYS.items():
            seconds = medians(program, files, options, times)
            each = {kind: (seconds[kind, MANY] - seconds[kind, FEW]) / (MANY - FEW) * 1000 for kind in KINDS}
            yield way, [each["collect"], each["later"], each["beside"] - each["work"], each["work"]]


def main():
    words = argparse.ArgumentParser(description=__doc__, formatter_class=argparse.RawDescriptionHelpFormatter)
    words.add_argument("names", nargs="*", metavar="NAME")
    words.add_argument("--times", type=int, default=3)
    words.add_argument("--objects", type=int, default=300000)
    words.add_argument("--program", default=marking.PROGRAM)
    given = words.parse_args()
    print("| Heap | Run | `collect` | later, waited for | later, beside commands | the commands |")
    print("|---|---|---|---|---|---|")
    for heap in given.names or marking.HEAPS:
        for way, cells in measured(given.program, heap, given.objects, given.times):
            print(f"| `{heap}` | {way} | " + " | ".join(f"{one:.1f}" for one in cells) + " |", flush=True)


if __name__ == "__main__":
    sys.exit(main())
