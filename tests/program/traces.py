#!/usr/bin/env python3
"""Traces: those of the examples, beside their plans as NAME.trace; and of all examples and of random plans, in rows, in
lines of JSON and in pictures:

- The rows whose answers are lines of the report are these lines, of each agent in order, and they and the agents' ends
  follow each other as the moves of rules.py do.
- Each row and each line is the one that trace_model.py gives, letter for letter, but for those of what keeps a value. Of
  these any shortest way will do: each step is one of the heap, what it comes from was told before, no way is longer than
  another, and what has to be told is told, and nothing else, each value once. Tickets that are given up at once come in any
  order.
- Each picture has the nodes and edges of the model's.

And the wrong traces of trace_faults.py are found out; and docs/trace.schema.json accepts the lines of the model, and none
that is spoiled.

Usage: traces.py PROGRAM COUNT SEED. Prints each trace that differs, and `N passed, M failed` last.
"""

import functools
import glob
import json
import os
import random
import re
import sys

TOP = os.path.dirname(os.path.dirname(os.path.dirname(os.path.abspath(__file__))))
sys.path.insert(0, os.path.join(TOP, "tests", "lib"))

import rules
import running
import third_plans
import trace_check
import trace_faults
import trace_forms
import trace_schema

# how many random plans have wrong traces made of them
SPOILED = 20
# of how many plans one has the pictures and all values told too
SHARE = 3
EXAMPLES = os.path.join(TOP, "examples")
# an answer that is a line of the report
REPORTED = re.compile(r"(say |keys( |$)|emptied \d|cleanup |error |skipped )")
LEDGER = "-"
# the last rows where a receipt is refused
REFUSED = [
    "b  new x                             object 1000000",
    "b  job ends",
    "b  message                           error limit: values",
    "-  message a to b taken",
    "-  ticket 2 spent",
    "-  block 1 released",
    "b  job ends",
    "b  agent ends",
    "-  b ended",
    "",
]
EVENT_WIDTH = 32


def parts(text):
    """The rows of a trace as name, event and answer, which is empty where there is none. No text of these plans has two
    blanks side by side, so the answer of a long event is what follows the last two."""
    rows = text.split("\n")[:-1]
    width = max(len(row.split(" ", 1)[0]) for row in rows)
    for row in rows:
        name, rest = row[:width].rstrip(), row[width + 2:]
        # a text may have blanks of its own
        masked = re.sub(r'"[^"]*"', lambda text: text[0].replace(" ", "_"), rest)
        cut = masked.rfind("  ") if len(rest) > EVENT_WIDTH else -1
        yield name, rest[:cut].rstrip() if cut > 0 else rest, rest[cut + 2:] if cut > 0 else ""


def reported(text):
    """For each agent the answers that are lines of the report, in order."""
    lines = {}
    for name, _, answer in parts(text):
        if name != LEDGER:
            lines.setdefault(name, [])
            if REPORTED.match(answer):
                lines[name].append(answer)
    return lines


def in_order(text):
    """The answers that are lines of the report, and the ends of agents, in the order of the rows, each with its name."""
    for name, event, answer in parts(text):
        if name != LEDGER and (REPORTED.match(answer) or event == "agent ends"):
            yield name, answer or event


def moved(agent, move, order):
    """Lets the agent move, and notes what it reported."""
    before = len(agent.lines)
    move()
    order += [(agent.name, line) for line in agent.lines[before:]]


def by_rules(data):
    """The same by the moves of rules.py."""
    order, ledger = [], rules.Ledger()
    agents = {agent["name"]: rules.Agent(agent, ledger) for agent in rules.read_plan(data)["agents"]}
    for agent in agents.values():
        agent.move = functools.partial(moved, agent, agent.move, order)
    rules.run_turns(agents)
    return [(name, "agent ends" if line.startswith("end live ") else line) for name, line in order]


def lines_of(report):
    """For each agent its lines in a report, but for the first and the last."""
    lines, agent = {}, None
    for line in report.split("\n"):
        if line == "cluster":
            return lines
        if line.startswith("agent "):
            agent = line[len("agent "):]
            lines[agent] = []
        elif not line.startswith("end "):
            lines[agent].append(line)
    return lines


def by_hand(program, count):
    """The examples with a trace beside them."""
    for path in sorted(glob.glob(os.path.join(EXAMPLES, "*.trace"))):
        with open(path, encoding="ascii") as wanted:
            plan = path[:-len(".trace")] + ".json"
            count.expect(os.path.basename(path), running.answer([program, "trace", plan]), (0, wanted.read(), ""))


def agrees(program, count, what, data):
    """Whether the trace of this text has the report's lines."""
    run = running.answer([program, "run", "--turns"], data)
    trace = running.answer([program, "trace"], data)
    if run[0] != 0:
        count.expect(what, trace, run)
        return
    count.expect(f"{what}, how it ended", (trace[0], trace[2]), (0, ""))
    count.expect(f"{what}, the report's lines", reported(trace[1]), lines_of(run[1]))
    count.expect(f"{what}, the order of moves", list(in_order(trace[1])), by_rules(data))


def refused_receipt(program, count):
    """A message whose buffer finds no room, as its receiver has made as many values as an agent may."""
    full = [{"run": [["new", "x"]] * 10000}] * 100
    agents = [
        {"name": "a", "callbacks": {}, "jobs": [{"run": [["buffer", "m", 1], ["post", "b", "m"]]}]},
        {"name": "b", "callbacks": {}, "jobs": [*full, {"on": ["a", "m"], "run": [["say", "m"]]}]},
    ]
    plan = json.dumps({"version": 1, "agents": agents}).encode()
    status, text, said = running.answer([program, "trace"], plan)
    count.expect("a refused receipt, how it ended", (status, said), (0, ""))
    count.expect("a refused receipt, its rows", text.split("\n")[-len(REFUSED):], REFUSED)


class Forms:
    """The three forms of a trace beside the model's."""

    def __init__(self, program, count):
        self.program, self.count = program, count

    def agree(self, what, data, is_shared):
        """Rows and lines of a plan; of one that has its share, those of all values and the pictures too."""
        try:
            turns, names = trace_check.model(data)
        except rules.Refused as refused:
            for words in (["--json"], ["--dot"], ["--all"]):
                got = running.answer([self.program, "trace", *words], data)
                self.count.expect(f"{what} {words}", got, (1, "", f"{refused}\n"))
            return
        views = [(trace_forms.Rows(), False), (trace_forms.Lines(), False)]
        if is_shared:
            views += [(trace_forms.Rows(), True), (trace_forms.Lines(), True), (trace_forms.Pictures(), False)]
        for form, is_all in views:
            self.agrees(what, data, turns, names, form, is_all)

    def agrees(self, what, data, turns, names, form, is_all):
        words = [*form.words, *(["--all"] if is_all else [])]
        status, text, said = running.answer([self.program, "trace", *words], data)
        self.count.expect(f"{what} {words}, how it ended", (status, said), (0, ""))
        self.count.add(f"{what} {words}: {data[:1000]!r}", trace_check.fault(form, turns, names, is_all, text))


def main():
    program, number, seed = os.path.abspath(sys.argv[1]), int(sys.argv[2]), int(sys.argv[3])
    count = running.Count()
    trace_faults.try_all(count, SPOILED, seed)
    trace_schema.try_all(count, SPOILED, seed)
    by_hand(program, count)
    refused_receipt(program, count)
    forms = Forms(program, count)
    for path in sorted(glob.glob(os.path.join(EXAMPLES, "*.json"))):
        with open(path, "rb") as file:
            plan = file.read()
        agrees(program, count, os.path.basename(path), plan)
        forms.agree(os.path.basename(path), plan, True)
    chance = random.Random(seed)
    for index in range(number):
        plan = third_plans.text_of_any(chance)
        agrees(program, count, f"plan {index} of seed {seed}", plan)
        forms.agree(f"plan {index} of seed {seed}", plan, index % SHARE == 0)
    count.end()


if __name__ == "__main__":
    main()
