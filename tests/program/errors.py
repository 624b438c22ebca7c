#!/usr/bin/env python3
"""Each example of docs/ERRORS.md is answered as that page says, and the page has each fault, status and refusal.

Usage: errors.py PROGRAM. Prints what differs, and `N passed, M failed` last.
"""

import json
import os
import re
import subprocess
import sys

TOP = os.path.dirname(os.path.dirname(os.path.dirname(os.path.abspath(__file__))))
# What docs/PLANS.md says of a limit in the row of a command.
LIMITS = {"new": "([\\d,]+) values were made", "buffer": "opened ([\\d,]+) blocks", "post": "posted ([\\d,]+) messages"}
MOST_COMMANDS = 10000


def read(*path):
    with open(os.path.join(TOP, *path), encoding="utf-8") as file:
        return file.read()


def rows(heading):
    """The rows of the table below a heading, each as its cells."""
    part = read("docs", "ERRORS.md").split(f"## {heading}\n")[1].split("\n## ")[0]
    lines = [line for line in part.split("\n") if line.startswith("| ")]
    return [[cell.strip() for cell in line.strip("|").split("|")] for line in lines[1:]]


def quoted(cell):
    return re.findall(r"`([^`]*)`", cell)


def codes(word, *path):
    """The texts of the clauses of a definition."""
    return re.findall(rf"^{word} .* = codes \"(.*)\"$", read(*path), re.M)


def plan_of(commands, callbacks, version):
    """A plan of a version whose agent `a` has these commands, in as many jobs as they need, beside an agent `b`."""
    runs = [commands[at : at + MOST_COMMANDS] for at in range(0, len(commands), MOST_COMMANDS)]
    agents = [
        {"name": "a", "callbacks": callbacks, "jobs": [{"run": run} for run in runs]},
        {"name": "b", "callbacks": {}, "jobs": []},
    ]
    return json.dumps({"version": version, "agents": agents})


def commands_of(text):
    """Commands as the page writes them, parted by `;`, in which whole numbers are numbers."""
    commands = []
    for part in text.split(";"):
        word, *operands = part.split()
        commands.append([word] + [int(it) if re.fullmatch(r"-?\d+", it) else it for it in operands])
    return commands


def limit_of(word):
    """How often docs/PLANS.md lets an agent give this command, by what it is refused for."""
    row = re.search(rf"^\| `{word} .*\|$", read("docs", "PLANS.md"), re.M)[0]
    return int(re.search(LIMITS[word], row)[1].replace(",", ""))


def run(program, text):
    ran = subprocess.run([program, "run", "--turns"], input=text.encode(), stdout=subprocess.PIPE, stderr=subprocess.PIPE)
    return ran.returncode, ran.stdout.decode(), ran.stderr.decode()


def faults(program):
    """For each fault of the page what is wrong with its row, or None."""
    table = rows("Faults of a plan")
    known = [f"S{number}" for number in range(1, 11)]
    yield "the faults", None if [row[0] for row in table] == known else f"the page has {[row[0] for row in table]}"
    for name, example, answer, *_ in table:
        text = quoted(example)[0]
        plan = plan_of([json.loads(text)], {}, 1) if text.startswith("[") else text
        ended = run(program, plan)
        wanted = (1, "", quoted(answer)[0] + "\n")
        yield name, None if ended == wanted else f"{text} ended as {ended}"


def refusals(program):
    """For each refusal of the page what is wrong with its row, or None."""
    table = rows("Refusals of a command")
    texts = codes("refusal_text", "crates", "es_event", "specs", "Report.antt")
    yield "the refusals", None if [quoted(row[0])[0] for row in table] == texts else "the page has other texts than Report.antt"
    for text, example, *_ in table:
        commands = commands_of(quoted(example)[0])
        if example.startswith("at the limit"):
            commands *= limit_of(commands[0][0]) + 1
        status, report, _ = run(program, plan_of(commands, {"cb": []}, 3))
        lines = [line for line in report.split("\n") if line.startswith("error ")]
        right = status == 0 and lines == [f"error {quoted(text)[0]}"]
        yield text, None if right else f"status {status}, and the report has {lines}"


def statuses():
    """What is wrong with the table of statuses, or None."""
    table = rows("Exit statuses")
    said = {int(row[0]): quoted(row[1]) for row in table}
    specs = read("crates", "es_engine", "specs", "Statuses.antt")
    numbers = {int(it) for it in re.findall(r"^status_for .* = (\d)$", specs, re.M)}
    texts = set(codes("run_fault_text", "crates", "es_engine", "specs", "Texts.antt"))
    yield "the statuses", None if set(said) == numbers else f"the page has {sorted(said)}, and Statuses.antt {sorted(numbers)}"
    lacking = texts - {it for quotes in said.values() for it in quotes}
    yield "their texts", None if not lacking else f"the page lacks {sorted(lacking)}"


def main():
    program = sys.argv[1]
    passed = failed = 0
    for part in (statuses(), faults(program), refusals(program)):
        for name, why in part:
            passed, failed = passed + (why is None), failed + (why is not None)
            if why:
                print(f"FAILED: {name}: {why}")
    print(f"{passed} passed, {failed} failed")
    return 1 if failed else 0


sys.exit(main())
