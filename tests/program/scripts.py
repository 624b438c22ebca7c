#!/usr/bin/env python3
"""Scripts of agents and what they report, worked out by hand from the rules: the rows of tests/rows/scripts. The program runs
each in threads, by turns, and in threads beside a watcher; those in clusters.txt and waiting.txt a hundred times in threads,
those in later.txt ten times, and with eight helpers besides.

Usage: scripts.py PROGRAM. Prints each run that ends otherwise, and `N passed, M failed` last.

A row is a title and then lines, up to an empty one: `version NUMBER`, 1 where it is not said; `agent NAME`; of it `callback NAME: COMMANDS`, `job: COMMANDS`,
`job NUMBER times: COMMANDS`, `job on AGENT VARIABLE: COMMANDS`, `says: LINES` and `fates: LIVE AWAITING UNREGISTERED TAKEN`;
and `cluster: BLOCKS RELEASED POSTED TAKEN DRAINED`. Commands are words and end with `;`, and lines of the report are
parted by `; `. What is not said is nothing, or 0.
"""

import glob
import json
import os
import re
import subprocess
import sys

TOP = os.path.dirname(os.path.dirname(os.path.dirname(os.path.abspath(__file__))))
TIMES_IN_THREADS = {"clusters.txt": 100, "later.txt": 10, "waiting.txt": 100}
HELPED = ["later.txt"]
# Of these the operand with this number is a literal. Of the others each whole number is a number.
LITERAL_AT = {"let": 2, "symbolfor": 2}


def commands(text):
    """The commands of a text, as a plan has them."""
    found = []
    for command in filter(None, (part.strip() for part in text.split(";"))):
        word, *operands = command.split(" ")
        at = LITERAL_AT.get(word)
        if at is not None:
            operands = operands[: at - 1] + [json.loads(" ".join(operands[at - 1 :]))]
        found.append([word] + [int(it) if re.fullmatch(r"-?\d+", str(it)) else it for it in operands])
    return found


class Row:
    """A plan, and the report that it has."""

    def __init__(self, title):
        self.title = title
        self.version, self.agents, self.told = 1, [], []
        self.cluster = "0 0 0 0 0"

    def add(self, line):
        """Takes in one line of the row."""
        head, _, rest = line.partition(":")
        rest = rest.strip()
        match head.split(" "):
            case ["version", number]:
                self.version = int(number)
            case ["agent", name]:
                self.agents.append({"name": name, "callbacks": {}, "jobs": []})
                self.told.append({"says": [], "fates": "0 0 0 0"})
            case ["callback", name]:
                self.agents[-1]["callbacks"][name] = commands(rest)
            case ["job"]:
                self.agents[-1]["jobs"].append({"run": commands(rest)})
            case ["job", times, "times"]:
                self.agents[-1]["jobs"].append({"run": commands(rest) * int(times)})
            case ["job", "on", sender, variable]:
                self.agents[-1]["jobs"].append({"on": [sender, variable], "run": commands(rest)})
            case ["says"]:
                self.told[-1]["says"] += rest.split("; ")
            case ["fates"]:
                self.told[-1]["fates"] = rest
            case ["cluster"]:
                self.cluster = rest
            case _:
                raise ValueError(f"{self.title}: {line}")

    def plan(self):
        """The plan as the program reads it."""
        return json.dumps({"version": self.version, "agents": self.agents}).encode()

    def report(self):
        """The whole report."""
        lines = []
        for agent, told in zip(self.agents, self.told):
            live, awaiting, unregistered, taken = told["fates"].split(" ")
            fates = f"end live {live} awaiting {awaiting} unregistered {unregistered} taken {taken}"
            lines += [f"agent {agent['name']}", *told["says"], fates]
        blocks, released, posted, taken, drained = self.cluster.split(" ")
        lines += ["cluster", f"blocks {blocks} released {released}"]
        lines += [f"messages posted {posted} taken {taken} drained {drained}", ""]
        return "\n".join(lines)


def rows_of(path, kind=Row):
    """The rows of a file."""
    row = None
    with open(path, encoding="ascii") as lines:
        for line in map(str.rstrip, lines):
            if line.startswith("# "):
                continue
            if not line:
                if row:
                    yield row
                row = None
            elif row is None:
                row = kind(line)
            else:
                row.add(line)
    if row:
        yield row


def ways_of(name):
    """How the rows of a file are run: with which options, what stands on standard error, and how often."""
    times = TIMES_IN_THREADS.get(name, 1)
    ways = [([], "", times), (["--turns"], "", 1), (["--watch", "1000"], "audits 1000\n", 1)]
    return ways + [(["--helpers", "8"], "", times)] * (name in HELPED)


def main():
    program = os.path.abspath(sys.argv[1])
    passed = failed = 0
    for path in sorted(glob.glob(os.path.join(TOP, "tests", "rows", "scripts", "*.txt"))):
        for row in rows_of(path):
            plan, report = row.plan(), row.report()
            for words, errors, runs in ways_of(os.path.basename(path)):
                for _ in range(runs):
                    run = subprocess.run([program, "run", *words], input=plan, capture_output=True, timeout=60, check=False)
                    if (run.returncode, run.stdout.decode(), run.stderr.decode()) == (0, report, errors):
                        passed += 1
                        continue
                    failed += 1
                    print(f"FAILED: {row.title} {' '.join(words)}: status {run.returncode}, {run.stderr!r}")
                    print(f"  wanted {report}\n  got {run.stdout.decode()}")
    print(f"{passed} passed, {failed} failed")
    return 1 if failed else 0


if __name__ == "__main__":
    sys.exit(main())
