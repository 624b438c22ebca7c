#!/usr/bin/env python3
"""How much of a history is settled: which events nothing looks back at any more.

Usage: settled.py [NAME[=NUMBER] ..]. Each plan of plans.py, or those of these names, is run by tests/lib/rules.py, by
turns. A line for each: its commands and what else happened; how many of the report's lines it has; and the most events
that were looked back at at one time, of some 200 times, each looked for right before a collection too. These are, for
each variable, its last assignment; for each object that is not emptied, its making, the last write of each of its
properties, each entry and each member; each registration that is not taken; and what the running job keeps alive. All
others are settled: no definition of ECMA-262 that the rules need says anything by them, but that they happened.

What the comparison of histories at the end of a run in threads reads is not counted: each access to a word, each message.
"""

import os
import subprocess
import sys

HERE = os.path.dirname(os.path.abspath(__file__))
sys.path.insert(0, os.path.join(HERE, "..", "tests", "lib"))

import rules  # noqa: E402

NAMES = {
    "commands": 20000, "new": 20000, "held": 20000, "list": 20000, "wide": 20000, "entries-forward": 10000, "maps": 5000,
    "nested": 5000, "registrations": 2000, "posts": 2000, "words": 5000, "adds-own": 2000, "lets": 5000,
}  # fmt: skip
TIMES = 200


def looked_back_at(agent):
    """How many events of an agent say something still."""
    there = [number for number in agent.properties if number not in agent.gone]
    parts = sum(len(agent.properties[number]) for number in there)
    entries = sum(map(len, agent.entries.values()))
    members = sum(map(len, agent.members.values()))
    return len(agent.variables) + len(there) + parts + entries + members + len(agent.cells) + len(agent.kept)


class Counting(rules.Agent):
    """An agent that looks from time to time how many of its events say something still."""

    every, events, most = 1, 0, 0
    told = {}

    def do(self, word, args):
        Counting.events += 1
        if Counting.events % Counting.every == 0 or word in ("collect", "collectlater"):
            Counting.told[self.name] = looked_back_at(self)
            Counting.most = max(Counting.most, sum(Counting.told.values()))
        return super().do(word, args)

    def take_cell(self, registry):
        Counting.events += 1
        return super().take_cell(registry)


def counted(name, number):
    """The events, the report's lines and the most that were looked back at."""
    made = subprocess.run([sys.executable, os.path.join(HERE, "plans.py"), name, str(number)], stdout=subprocess.PIPE, check=True)
    plan = rules.read_plan(made.stdout)
    commands = sum(len(job["run"]) for agent in plan["agents"] for job in agent["jobs"])
    Counting.every, Counting.events, Counting.most, Counting.told = max(1, commands // TIMES), 0, 0, {}
    lines = rules.report(plan).count("\n")
    return Counting.events, lines, Counting.most


def main():
    rules.Agent = Counting
    wanted = dict(word.partition("=")[::2] for word in sys.argv[1:]) or {name: "" for name in NAMES}
    print("| Plan | events | lines | looked back at, at most | of the events |")
    print("|---|---|---|---|---|")
    for name, number in wanted.items():
        events, lines, most = counted(name, int(number or NAMES[name]))
        print(f"| `{name}` | {events} | {lines} | {most} | {most / events:.2f} |", flush=True)


main()
