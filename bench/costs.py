#!/usr/bin/env python3
"""Counts what a command of each kind costs: instructions of its step, and bytes of its step.

Usage: costs.py [--program FILE] [--no-bytes] [KIND ..]. Without KIND, all of KINDS below. A plan has one agent, a first job
that makes what the commands need, and N commands of the kind in jobs behind it; one that is refused ends its job, so there
each has a job of its own. Instructions are counted by valgrind's callgrind, of `run` less those of a `run` where each job
ends by a refusal before these commands, so that they are read and not done, by turns and in threads, for two numbers of
commands: what one costs is the difference by the difference of the numbers. So the program's start, the first job and the
reading are not in it; of a refused command the reading of its job is. Bytes are counted in the same way, of the highest
resident memory of `run` alone: a command of the plan and its event, and what it makes. Prints a table. It takes some ten
minutes, and wants valgrind and GNU time.
"""

import argparse
import json
import os
import re
import subprocess
import sys
import tempfile

HERE = os.path.dirname(os.path.abspath(__file__))
PROGRAM = os.path.join(os.path.dirname(HERE), "crates", "clusterrun", "out", "clusterrun")
LONGEST = 10000  # the most commands of a job
COUNTED = (2000, 12000)  # how many commands, where instructions are counted
WEIGHED = (100000, 300000)  # how many, where bytes are

# Of each kind what its commands need, the commands by their number, and how many there may be.
ANY = 10**9
KINDS = {
    "let": ([], lambda n: ["let", "x", n], ANY),
    "copy": ([["let", "y", 1]], lambda n: ["copy", "x", "y"], ANY),
    "same": ([["let", "y", 1]], lambda n: ["same", "x", "y", "y"], ANY),
    "say": ([["let", "y", 1]], lambda n: ["say", "y"], ANY),
    "new": ([], lambda n: ["new", "x"], ANY),
    "symbol": ([], lambda n: ["symbol", "x"], ANY),
    "symbolfor": ([], lambda n: ["symbolfor", "x", "text"], ANY),
    "set, a key that is there": ([["new", "o"]], lambda n: ["set", "o", f"k{n % 2}", "o"], ANY),
    "set, a new key": ([["new", "o"]], lambda n: ["set", "o", f"k{n}", "o"], ANY),
    "get": ([["new", "o"], ["set", "o", "k", "o"]], lambda n: ["get", "x", "o", "k"], ANY),
    "delete": ([["new", "o"]], lambda n: ["delete", "x", "o", "k"], ANY),
    "keys, of two": ([["new", "o"], ["set", "o", "k", "o"], ["set", "o", "l", "o"]], lambda n: ["keys", "o"], ANY),
    "weakref": ([["new", "o"]], lambda n: ["weakref", "w", "o"], ANY),
    "deref": ([["new", "o"], ["weakref", "w", "o"]], lambda n: ["deref", "x", "w"], ANY),
    "weakmap": ([], lambda n: ["weakmap", "m"], ANY),
    "wmset": ([["weakmap", "m"], ["new", "k"]], lambda n: ["wmset", "m", "k", "k"], ANY),
    "wmget": ([["weakmap", "m"], ["new", "k"], ["wmset", "m", "k", "k"]], lambda n: ["wmget", "x", "m", "k"], ANY),
    "wmhas": ([["weakmap", "m"], ["new", "k"], ["wmset", "m", "k", "k"]], lambda n: ["wmhas", "x", "m", "k"], ANY),
    "wmdelete": ([["weakmap", "m"], ["new", "k"]], lambda n: ["wmdelete", "x", "m", "k"], ANY),
    "weakset": ([], lambda n: ["weakset", "s"], ANY),
    "wsadd": ([["weakset", "s"], ["new", "k"]], lambda n: ["wsadd", "s", "k"], ANY),
    "wshas": ([["weakset", "s"], ["new", "k"], ["wsadd", "s", "k"]], lambda n: ["wshas", "x", "s", "k"], ANY),
    "wsdelete": ([["weakset", "s"], ["new", "k"]], lambda n: ["wsdelete", "x", "s", "k"], ANY),
    "registry": ([], lambda n: ["registry", "r", "c"], ANY),
    "register": ([["registry", "r", "c"], ["new", "o"]], lambda n: ["register", "r", "o", "n"], ANY),
    "register, with a token": ([["registry", "r", "c"], ["new", "o"]], lambda n: ["register", "r", "o", "n", "o"], ANY),
    "unregister, of nothing": ([["registry", "r", "c"], ["new", "o"]], lambda n: ["unregister", "x", "r", "o"], ANY),
    "length": ([["buffer", "b", 1]], lambda n: ["length", "x", "b"], ANY),
    "sameblock": ([["buffer", "b", 1]], lambda n: ["sameblock", "x", "b", "b"], ANY),
    "load": ([["buffer", "b", 1]], lambda n: ["load", "x", "b", 0], ANY),
    "store": ([["buffer", "b", 1]], lambda n: ["store", "b", 0, n], ANY),
    "add": ([["buffer", "b", 1]], lambda n: ["add", "x", "b", 0, 1], ANY),
    "post, of a number": ([["let", "y", 1]], lambda n: ["post", "b", "y"], 10000),
    "post, of a buffer": ([["buffer", "y", 1]], lambda n: ["post", "b", "y"], 10000),
    "collect, of little": ([], lambda n: ["collect"], ANY),
    "commands that change tables little": (
        [["new", f"o{number}"] for number in range(8)],
        lambda n: [
            ["let", "x", n],
            ["set", f"o{n // 4 % 8}", f"p{n % 2}", "x"],
            ["get", "y", f"o{n // 4 % 8}", f"p{n % 2}"],
            ["copy", "z", "y"],
        ][n % 4],
        ANY,
    ),
    "a refused command, with its job": ([], lambda n: ["deref", "x", "n"], 999),
}
REFUSED = {"a refused command, with its job"}


def plan(kind, count, is_skipped):
    """A plan of this many commands of the kind, in jobs that do them or end before, and a second agent that takes nothing."""
    needs, command, _ = KINDS[kind]
    # An event of a job keeps its commands, so that they are let go as those are that are done.
    begins = [["let", "begun", 1], ["deref", "x", "nothing"]] if is_skipped else [] if kind in REFUSED else [["let", "begun", 1]]
    length = 1 if kind in REFUSED and not is_skipped else LONGEST - len(begins)
    commands = [command(number) for number in range(count)]
    jobs = [needs] + [begins + commands[at : at + length] for at in range(0, count, length)]
    first = {"name": "a", "callbacks": {"c": []}, "jobs": [{"run": job} for job in jobs]}
    return json.dumps({"version": 1, "agents": [first, {"name": "b", "callbacks": {}, "jobs": []}]})


def instructions(words, room):
    """How many instructions the program executes with these words."""
    told = os.path.join(room, "callgrind.out")
    said = subprocess.run(
        ["valgrind", "--tool=callgrind", f"--callgrind-out-file={told}", *words],
        stdout=subprocess.DEVNULL,
        stderr=subprocess.PIPE,
        text=True,
        check=True,
    )
    return int(re.search(r"Collected : (\d+)", said.stderr).group(1))


def peak(words):
    """The highest resident memory of the program with these words, in bytes."""
    # by a process of its own, as a child begins with the peak of its parent
    said = subprocess.run(
        ["/usr/bin/time", "-f", "%M", *words], stdout=subprocess.DEVNULL, stderr=subprocess.PIPE, text=True, check=True
    )
    return int(said.stderr.split()[-1]) * 1024


def written(kind, count, room, is_skipped=False):
    file = os.path.join(room, f"{count}{'-skipped' if is_skipped else ''}.json")
    with open(file, "w", encoding="utf-8") as out:
        out.write(plan(kind, count, is_skipped))
    return file


def slope(kind, counts, measure):
    """What one command more adds to what is measured."""
    few, many = counts if counts[1] <= KINDS[kind][2] else (KINDS[kind][2] // 5, KINDS[kind][2])
    return (measure(many) - measure(few)) / (many - few)


def steps(program, kind, options, room):
    """The instructions of the steps of so many commands, and not of their reading."""

    def counted(count):
        ran, skipped = (instructions([program, "run", written(kind, count, room, is_skipped), *options], room) for is_skipped in (False, True))
        return ran - skipped

    return counted


def row(program, kind, weigh):
    """The cells of a kind's line."""
    with tempfile.TemporaryDirectory() as room:
        cells = []
        for options in (["--turns"], []):
            cells.append(slope(kind, COUNTED, steps(program, kind, options, room)))
        if weigh and KINDS[kind][2] == ANY:
            cells.append(slope(kind, WEIGHED, lambda count: peak([program, "run", written(kind, count, room), "--turns"])))
        return cells


def main():
    words = argparse.ArgumentParser(description=__doc__, formatter_class=argparse.RawDescriptionHelpFormatter)
    words.add_argument("kinds", nargs="*", metavar="KIND")
    words.add_argument("--program", default=PROGRAM)
    words.add_argument("--no-bytes", action="store_true")
    given = words.parse_args()
    print("| Command | instructions, by turns | in threads | ratio | bytes |")
    print("|---|---|---|---|---|")
    for kind in given.kinds or KINDS:
        turns, threads, *weight = row(given.program, kind, not given.no_bytes)
        weighed = f"{weight[0]:.0f}" if weight else ""
        print(f"| {kind} | {turns:.0f} | {threads:.0f} | {threads / turns:.2f} | {weighed} |", flush=True)


if __name__ == "__main__":
    sys.exit(main())
