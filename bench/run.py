#!/usr/bin/env python3
"""Times the built program on the plans of plans.py, and beside it, where there is node, an interpreter of the same plans.

Usage: run.py [--times N] [--limit SECONDS] [--threads] [NAME[=NUMBER] ..]
       run.py [--times N] [--limit SECONDS] [--threads] --growth NAME ..
       run.py [--times N] [--limit SECONDS] --collections [NAME[=NUMBER] ..]
       run.py [--times N] [--limit SECONDS] --reading [NAME[=NUMBER] ..]
The program runs each plan by turns, in one thread. Without names all plans but those of eight agents that add or let are run,
without N three times each, the two in turn, and each run has 60 seconds. Prints a table: the median time by the clock
and of all processors (which other load changes less), the highest peak memory, and the program's numbers as multiples
of the interpreter's. With --threads the program runs each plan in threads as well, and the multiples are those of that
run; without names the plans of several agents are run. With --growth each plan is run at 10,000, 30,000, 100,000 and
300,000 in place of its usual number, and a line below it has the exponents between the first and the last: with 1 a
time grows as the number, with 2 as its square; a constant part, such as node's start, lowers them. With --collections
the table has the milliseconds of one collection while all is held, of the program by turns and of the interpreter,
which forces a full one: a twentieth of what twenty more of them take. With --reading it has what the program's `check`
takes, and its peak in bytes for each byte of the plan's text. Reports that differ, but for `emptied N` and for the
order of `cleanup` lines that follow each other, which is an engine's own, are told below the table. It needs GNU time
as `/usr/bin/time`.
"""

import argparse
import collections
import itertools
import math
import os
import shutil
import signal
import statistics
import subprocess
import sys
import tempfile
import time

HERE = os.path.dirname(os.path.abspath(__file__))
PROGRAM = os.path.join(os.path.dirname(HERE), "crates", "clusterrun", "out", "clusterrun")
ENGINE = ["node", "--expose-gc", os.path.join(HERE, "engine.mjs")]
NAMES = [
    "start", "commands", "new", "held", "wide", "list", "entries-forward", "entries-reversed", "entries-shuffled",
    "maps", "nested", "registrations", "check", "posts", "ping-pong", "ring", "words",
]
COLLECTED = ["wide", "list", "entries-forward", "entries-shuffled", "maps", "nested", "registrations"]
MORE = 20  # so many collections more are timed
READ = ["commands", "held", "registrations", "words", "check"]
THREADED = ["posts", "ping-pong", "ring", "words", "adds-shared", "adds-own", "lets"]
FEW_JOBS = ["check", "posts", "ping-pong", "ring"]  # an agent has no room for as many jobs as larger numbers ask for
SIZES = [10000, 30000, 100000, 300000]
# what is measured: its name in the table, its first words, and what stands after a plan that is run
Tool = collections.namedtuple("Tool", ["name", "words", "options"])


class Row:
    """What was measured of one program on one plan."""

    def __init__(self):
        self.seconds = []
        self.worked = []  # the seconds of all its processors together
        self.peak = 0.0
        self.fault = None

    def cells(self, digits):
        if self.fault or not self.seconds:
            return [self.fault or "", "", ""]
        medians = [statistics.median(self.seconds), statistics.median(self.worked)]
        return [*(f"{median:.{digits}f}" for median in medians), f"{self.peak:.0f}"]


def measure(row, words, room, limit):
    """Runs the words once, adds what it took to the row, and returns what was written."""
    said, taken = os.path.join(room, "said"), os.path.join(room, "taken")
    with open(said, "wb") as out:
        started = time.monotonic()
        # A group of its own, so that the limit ends the program and not only the timer above it.
        timed = ["/usr/bin/time", "-q", "-o", taken, "-f", "%M %U %S", *words]
        ran = subprocess.Popen(timed, stdout=out, stderr=subprocess.PIPE, start_new_session=True)
        try:
            complaint = ran.communicate(timeout=limit)[1].decode().strip()
        except subprocess.TimeoutExpired:
            os.killpg(ran.pid, signal.SIGKILL)
            ran.communicate()
            row.fault = f"over {limit:g}"
            return None
        seconds = time.monotonic() - started
    if ran.returncode != 0:
        row.fault = f"status {ran.returncode}"
        print(f"{' '.join(words)}: {complaint[-300:]}", file=sys.stderr)
        return None
    row.seconds.append(seconds)
    with open(taken, encoding="utf-8") as numbers:
        peak, user, system = (float(word) for word in numbers.read().split()[-3:])
    row.worked.append(user + system)
    row.peak = max(row.peak, peak / 1000)
    with open(said, encoding="utf-8") as out:
        lines = [line for line in out if not line.startswith("emptied ")]
    groups = itertools.groupby(lines, lambda line: line.startswith("cleanup "))
    return [line for cleaned, group in groups for line in (sorted(group) if cleaned else group)]


def ratio(ours, theirs):
    return f"{ours / theirs:.2f}" if theirs else ""


def tools(threads):
    by_turns = Tool("turns" if threads else "clusterrun", [PROGRAM], ["--turns"])
    return [Tool("threads", [PROGRAM], [])] * threads + [by_turns, Tool("node", ENGINE, [])]


def made(room, what, *words):
    """The file of the plan that plans.py makes of these words."""
    plan = os.path.join(room, "-".join(["plan", *words]) + ".json")
    with open(plan, "wb") as file:
        subprocess.run([sys.executable, os.path.join(HERE, "plans.py"), what, *words], stdout=file, check=True)
    return plan


def compare(name, given, measured):
    """Runs a plan with these tools, of which node may be missing, and prints its line of the table, in which the first
    is compared with node. Gives a row of each, and whether the reports were the same."""
    what, _, number = name.partition("=")
    verb = "check" if what == "check" else "run"
    same = True
    with tempfile.TemporaryDirectory() as room:
        plan = made(room, what, *[number] * bool(number))
        rows = [Row() for _ in measured]
        for _ in range(given.times):
            reports = []
            for row, tool in zip(rows, measured):
                if not row.fault and shutil.which(tool.words[0]) is not None:
                    words = [*tool.words, verb, plan, *tool.options * (verb == "run")]
                    reports.append(measure(row, words, room, given.limit))
            ended = [report for report in reports if report is not None]
            same = same and all(report == ended[0] for report in ended)
        digits = 3 if given.threads else 2  # many of the plans in threads take few milliseconds
        cells = [f"`{name}`", f"{os.path.getsize(plan) / 1e6:.1f}"]
        cells += [cell for row in rows for cell in row.cells(digits)]
        ours, theirs = rows[0], rows[-1]
        both = not ours.fault and not theirs.fault and theirs.seconds
        cells.append(ratio(statistics.median(ours.seconds), statistics.median(theirs.seconds)) if both else "")
        cells.append(ratio(ours.peak, theirs.peak) if both else "")
        print("| " + " | ".join(cells) + " |", flush=True)
    return rows, same


def collect(name, given, measured):
    """Times one collection of these tools on a plan, and prints its line of the table."""
    what, _, number = name.partition("=")
    number = number or "300000"
    with tempfile.TemporaryDirectory() as room:
        plans = [made(room, what, number), made(room, what, number, str(MORE))]
        rows = [[Row() for _ in plans] for _ in measured]
        for _ in range(given.times):
            for row_pair, tool in zip(rows, measured):
                if shutil.which(tool.words[0]) is not None:
                    for row, plan in zip(row_pair, plans):
                        if not row.fault:
                            measure(row, [*tool.words, "run", plan, *tool.options], room, given.limit)
    taken = []
    for few, many in rows:
        timed = few.seconds and many.seconds and not few.fault and not many.fault
        taken.append((statistics.median(many.seconds) - statistics.median(few.seconds)) / MORE if timed else None)
    cells = [f"{seconds * 1000:.1f}" if seconds is not None else "" for seconds in taken]
    cells.append(ratio(*taken) if None not in taken and taken[1] > 0 else "")
    print("| " + " | ".join([f"`{what}`", number, *cells]) + " |", flush=True)


def read(name, given):
    """Measures the program's `check` of a plan, and prints its line of the table."""
    what, _, number = name.partition("=")
    with tempfile.TemporaryDirectory() as room:
        plan = made(room, what, *[number] * bool(number))
        size = os.path.getsize(plan)
        row = Row()
        for _ in range(given.times):
            if not row.fault:
                measure(row, [PROGRAM, "check", plan], room, given.limit)
    per_byte = "" if row.fault else f"{row.peak * 1e6 / size:.1f}"
    print("| " + " | ".join([f"`{name}`", f"{size / 1e6:.1f}", *row.cells(2), per_byte]) + " |", flush=True)


def exponents(first, last):
    """Those of the time by the clock and of all processors, where both sizes were run to the end."""
    if first.fault or last.fault or not first.seconds:
        return ["", ""]
    steps = math.log(SIZES[-1] / SIZES[0])
    pairs = [(first.seconds, last.seconds), (first.worked, last.worked)]
    medians = [(statistics.median(least), statistics.median(largest)) for least, largest in pairs]
    return [f"{math.log(largest / least) / steps:.2f}" if least and largest else "" for least, largest in medians]


def main():
    words = argparse.ArgumentParser(description=__doc__, formatter_class=argparse.RawDescriptionHelpFormatter)
    words.add_argument("names", nargs="*", metavar="NAME[=NUMBER]")
    words.add_argument("--times", type=int, default=3)
    words.add_argument("--limit", type=float, default=60)
    words.add_argument("--threads", action="store_true")
    words.add_argument("--growth", action="store_true")
    words.add_argument("--collections", action="store_true")
    words.add_argument("--reading", action="store_true")
    given = words.parse_args()
    if given.threads + given.growth > 0 and given.collections + given.reading > 0 or given.collections and given.reading:
        words.error("--collections and --reading go with none of the others")
    if given.growth and (not given.names or any("=" in name or name in FEW_JOBS for name in given.names)):
        none = " or ".join(FEW_JOBS)
        words.error(f"--growth takes names of plans, without numbers, and not {none}, which would have too many jobs")
    if not os.path.isfile(PROGRAM):
        sys.exit("the program is not built: run ./clusterrun prove first")
    if not os.path.isfile("/usr/bin/time"):
        sys.exit("/usr/bin/time is missing: install GNU time")
    measured = tools(given.threads)
    if given.collections:
        print("| Plan | Number | clusterrun, ms | node, ms | ratio |\n|---|---|---|---|---|", flush=True)
        for name in given.names or COLLECTED:
            collect(name, given, measured)
        return
    if given.reading:
        print("| Plan | MB | check, s | CPU, s | peak, MB | bytes for each byte |\n|---|---|---|---|---|---|", flush=True)
        for name in given.names or READ:
            read(name, given)
        return
    columns = [column for tool in measured for column in (f"{tool.name}, s", "CPU, s", "peak, MB")]
    print("| " + " | ".join(["Plan", "MB", *columns, "time, ratio", "memory, ratio"]) + " |")
    print("|" + "---|" * (len(columns) + 4), flush=True)
    differing = []
    for name in given.names or (THREADED if given.threads else NAMES):
        rows = []
        for sized in [f"{name}={size}" for size in SIZES] if given.growth else [name]:
            row, same = compare(sized, given, measured)
            rows.append(row)
            if not same and sized not in differing:
                differing.append(sized)
        if given.growth:
            cells = [cell for first, last in zip(rows[0], rows[-1]) for cell in (*exponents(first, last), "")]
            print("| " + " | ".join([f"`{name}`, exponents", "", *cells, "", ""]) + " |", flush=True)
    for name in differing:
        print(f"the reports of {name} differ")
    sys.exit(1 if differing else 0)


main()
