#!/usr/bin/env python3
"""Random plans by random lists of turns, through the crate `calls` and through rules.py: each turn, each audit after it,
all lines of the agents and whether the histories match must be the same. And before them the rows of turns.txt, with
audits that were worked out by hand: they are as those of scripts.py, and have lines `turns NUMBERS: AUDIT` for the audit
after the turns of these agents, and `ended NUMBER: AUDIT` for one turn of an agent that has ended.

Usage: turns.py CALLS COUNT SEED. CALLS is the program of that crate. Prints each plan that differs, how many turns were of what kind, and
`N passed, M failed` last.
"""

import collections
import os
import random
import subprocess
import sys

TOP = os.path.dirname(os.path.dirname(os.path.dirname(os.path.abspath(__file__))))
sys.path.insert(0, os.path.join(TOP, "tests", "lib"))

import players
import scripts


def expected(plan, turns, kinds):
    """What is to be written, and how many turns are of each kind."""
    cluster = players.Cluster(plan)
    for number in turns:
        player = cluster.players[number]
        before = len(player.lines)
        progress = cluster.step(player)
        kinds[progress] += 1
        yield f"{number} {progress}"
        yield from player.lines[before:]
        yield cluster.audit()
    kinds["audited with tickets"] += sum(cluster.ledger.tickets) > 0
    cluster.run_turns()
    for number, player in enumerate(cluster.players):
        yield f"agent {number}"
        yield from player.lines
    yield cluster.audit()
    yield "matches true"


class Played(scripts.Row):
    """A row with turns and the audits after them."""

    def __init__(self, title):
        super().__init__(title)
        self.stretches = []

    def add(self, line):
        head, _, rest = line.partition(":")
        match head.split(" "):
            case ["turns" | "ended" as kind, numbers]:
                self.stretches.append((kind, numbers, f"audit {rest.strip()}"))
            case _:
                super().add(line)

    def words(self):
        """What the program `calls` is told: the turns, and that they are those of a cluster."""
        return ["".join(numbers for _, numbers, _ in self.stretches), "cluster"]

    def fault(self, program):
        """What is otherwise than it should be, or nothing."""
        words = [program, *self.words()]
        ran = subprocess.run(words, input=self.plan(), capture_output=True, timeout=60, check=False)
        lines = ran.stdout.decode().splitlines()
        # Each turn has its line, the newest of the agent where it has one, and an audit.
        begun = [at for at, line in enumerate(lines) if line.split(" ")[1:] in (["Moved"], ["Waiting"], ["Ended"])]
        audits = [at for at, line in enumerate(lines) if line.startswith("audit ")]
        turn = 0
        for kind, numbers, audit in self.stretches:
            turn += len(numbers)
            if lines[audits[turn - 1]] != audit:
                return f"after turn {turn} {lines[audits[turn - 1]]}, not {audit}"
            if (lines[begun[turn - 1]] == f"{numbers} Ended") != (kind == "ended"):
                return f"turn {turn} is {lines[begun[turn - 1]]}"
        told = [line for number, agent in enumerate(self.told) for line in (f"agent {number}", *agent["says"])]
        if lines[audits[turn - 1] + 1 : audits[turn]] != told or lines[-1] != "matches true":
            return f"says {lines[audits[turn - 1] + 1:]}, not {told}"
        return None


def main():
    program, count, seed = sys.argv[1], int(sys.argv[2]), int(sys.argv[3])
    rng = random.Random(seed)
    passed, failed, kinds = 0, 0, collections.Counter()
    for row in scripts.rows_of(os.path.join(TOP, "tests", "rows", "turns.txt"), Played):
        if fault := row.fault(program):
            failed += 1
            print(f"FAILED: {row.title}: {fault}")
        else:
            passed += 1
    for number in range(count):
        data, plan = players.a_plan(rng)
        turns = players.turns_of(rng, len(plan["agents"]))
        words = [program, "".join(map(str, turns)), "cluster"]
        ran = subprocess.run(words, input=data, capture_output=True, timeout=60, check=False)
        want = "".join(f"{line}\n" for line in expected(plan, turns, kinds))
        if (ran.returncode, ran.stdout.decode()) == (0, want):
            passed += 1
        else:
            failed += 1
            print(f"plan {number} of seed {seed}: {data!r} by {turns}\n  wanted {want}\n  got {ran.stdout.decode()}")
    print(f"of {count} lists: " + ", ".join(f"{kind} {number}" for kind, number in sorted(kinds.items())))
    print(f"{passed} passed, {failed} failed")
    sys.exit(1 if failed else 0)


if __name__ == "__main__":
    main()
