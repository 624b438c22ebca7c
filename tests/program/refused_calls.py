#!/usr/bin/env python3
"""Each growth of a call of an agent or its ledger refused in turn, through the program of the crate `calls`, which makes
that call once more: then the plan goes on as if there had been memory. Or it gives all up there: then no block has a
ticket left.

Usage: refused_calls.py CALLS. Prints each run that ends otherwise, which calls were made again, and `N passed, M failed`
last. It needs a C compiler.

The rows are those of growths.txt, turns.txt and calls.txt, with lines and audits that were worked out by hand. After the
turns of a row, if it has any, the agents move in order. A list grows only here and there, so in the rows of calls.txt the commands `pad`
stand for more and more commands before a call. Each call that takes memory is to be refused it somewhere.

Where all is given up, a message that was taken before its receipt found no memory has its ticket spent, a block that was
opened before `admit` found none is released, and so is each other block: its count is 0 once all racks are spent, all
agents have ended, and the ledger is drained. That is tried after each turn too, with nothing refused.
"""

import collections
import os
import sys
import tempfile

TOP = os.path.dirname(os.path.dirname(os.path.dirname(os.path.abspath(__file__))))
sys.path.insert(0, os.path.join(TOP, "tests", "lib"))

import running
import scripts
import turns
from refusing import Refusing

ROWS = os.path.join(TOP, "tests", "rows")
REFUSE = os.path.join(TOP, "tests", "program", "refuse.c")
CALLS = "Perform Collect BeginLater FinishLater Admit Receive AnswerWord AnswerWait AnswerDone Skip".split()
CALLS += "OpenBlock Post PostBuffer AwaitMessage Access WaitAt Notify".split()  # of the ledger
PADS = 10  # so many rows are made of one of calls.txt
ROUNDS = 80  # so many turns each agent has after those of a row
AROUND = 5  # so many growths before the first turn are refused too; those of the words differ by no more
NO_MEMORY = (1, "", "")  # elsewhere than in a call


class Padded(turns.Played):
    """A row in which `pad` stands for so many commands."""

    def __init__(self, title, count=0):
        super().__init__(title)
        self.count = count

    def plan(self):
        for agent in self.agents:
            for job in agent["jobs"]:
                job["run"] = self.padded(job["run"])
            for name, run in agent["callbacks"].items():
                agent["callbacks"][name] = self.padded(run)
        return super().plan()

    def padded(self, commands):
        return [step for command in commands for step in self.steps(command)]

    def steps(self, command):
        match command:
            case ["pad"]:
                return [["let", "pad", 1]] * self.count
            case ["pad", buffer]:
                return [["store", buffer, 0, 0]] * self.count
        return [command]

    def turns(self):
        listed = "".join(numbers for _, numbers, _ in self.stretches)
        return listed + "".join(map(str, range(len(self.agents)))) * ROUNDS

    def unlike(self, lines):
        """What is otherwise than it should be in a run with memory, or nothing."""
        audits = [at for at, line in enumerate(lines) if line.startswith("audit ")]
        turn = 0
        for _, numbers, audit in self.stretches:
            turn += len(numbers)
            if lines[audits[turn - 1]] != audit:
                return f"after turn {turn} {lines[audits[turn - 1]]}, not {audit}"
        told = [line for number, agent in enumerate(self.told) for line in (f"agent {number}", *agent["says"])]
        blocks = self.cluster.split(" ")[0] if not self.stretches else lines[audits[-1]].split(" ")[1]
        want = [*told, "left:" + " 0" * int(blocks), "again 0 Nothing"]
        return None if lines[audits[-1] + 1 :] == want else f"wanted {want}, got {lines[audits[-1] + 1:]}"


def gave_up(lines, whole):
    """Whether a run went as the whole one up to a turn, and there gave all up, with no ticket left."""
    if "no memory" not in lines:
        return False
    at = lines.index("no memory")
    audits = [line for line in lines[:at] if line.startswith("audit ")]
    blocks = int(audits[-1].split(" ")[1]) if audits else 0
    left = ["left:" + " 0" * count for count in (blocks, blocks + 1)]
    return lines[:at] == whole[:at] and lines[at + 1] in left and lines[at + 2 :] == ["again 0 Nothing"]


def again(lines, whole, kinds):
    """Whether a run made one call once more, and went as the whole one else."""
    *same, last = lines or [""]
    match last.split(" "):
        case ["again", "1", call] if same == whole[:-1]:
            kinds[call] += 1
            return True
    return False


def try_row(refusing, row, kinds):
    """Refuses each growth of a row, from its first turn on."""
    data, played = row.plan(), row.turns()
    before = refusing.run([""], data, 0)[1]
    (status, text, errors), growths = refusing.run([played], data, 0)
    whole = text.splitlines()
    fault = f"status {status}, {errors}" if status else row.unlike(whole)
    refusing.count.add(row.title, fault)
    for number in range(max(1, before - AROUND), growths + 1) if not fault else []:
        for words in ([played], [played, "once"]):
            got, _ = refusing.run(words, data, number)
            lines = got[1].splitlines()
            ends = gave_up(lines, whole) if "once" in words else again(lines, whole, kinds)
            well = (got[0], got[2]) == (0, "") and (lines == whole or ends)
            well = well or got == NO_MEMORY and number <= before + AROUND
            refusing.refused += well and lines != whole
            refusing.count.add(f"{row.title}, {row.count} more, growth {number}, {words[1:]}", None if well else got)


def try_ends(refusing, row):
    """Gives all up after each turn of a row, up to its last event."""
    data, played = row.plan(), row.turns()
    for end in range(len(played)):
        got, _ = refusing.run([played[:end]], data, 0)
        lines = got[1].splitlines()
        audits = [line for line in lines if line.startswith("audit ")]
        blocks = int(audits[-1].split(" ")[1]) if audits else 0
        want = ["left:" + " 0" * blocks, "again 0 Nothing"]
        refusing.count.add(f"{row.title}, given up after {end} turns", None if lines[-2:] == want else got)
        if all(f"{agent} Ended" in lines for agent in range(len(row.agents))):
            break


def rows():
    for name in ("growths.txt", "turns.txt"):
        yield from scripts.rows_of(os.path.join(ROWS, name), Padded)
    for count in range(PADS):
        yield from scripts.rows_of(os.path.join(ROWS, "calls.txt"), lambda title: Padded(title, count))


def main():
    program, kinds = os.path.abspath(sys.argv[1]), collections.Counter()
    with tempfile.TemporaryDirectory() as room:
        refusing = Refusing(program, running.built(room, REFUSE), room)
        for row in rows():
            try_row(refusing, row, kinds)
            if not row.count:
                try_ends(refusing, row)
    for call in CALLS:
        refusing.count.add(call, None if kinds[call] else "was never refused memory")
    print("made again: " + ", ".join(f"{call} {number}" for call, number in sorted(kinds.items())))
    print(f"{refusing.refused} growths refused")
    refusing.count.end()


if __name__ == "__main__":
    main()
