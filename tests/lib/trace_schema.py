"""docs/trace.schema.json is the format of the lines of `clusterrun trace --json`: it accepts each line that trace_model.py
gives, and none whose members are otherwise."""

import glob
import json
import os
import random

import rules
import schema_judges
import third_plans
import trace_check
import trace_forms

TOP = os.path.dirname(os.path.dirname(os.path.dirname(os.path.abspath(__file__))))
PATH = os.path.join(TOP, "docs", "trace.schema.json")
# how many lines of each kind are judged at most, and how many are spoiled
JUDGED = 10
SPOILED = 1
# A job that is refused when its message comes would need a million values first; so this line is written by hand, and so is
# one of a refusal that is caught.
BY_HAND = [
    {"agent": "a", "event": "refused", "command": None, "error": "limit: values"},
    {"agent": "a", "event": "caught", "variable": "e", "command": ["weakref", "w", "x"],
     "error": "TypeError: cannot be held weakly"},
]


def judges():
    """Those who say whether a line is accepted: the one of schema_judges.py, and python's library where it is."""
    with open(PATH, encoding="utf-8") as file:
        root = json.load(file)
    return [schema_judges.Schema(root).accepts, *([schema_judges.library(root)] if schema_judges.jsonschema else [])]


def plans(chance, number):
    """The examples, and of so many random plans those that have no fault."""
    for path in sorted(glob.glob(os.path.join(TOP, "examples", "*.json"))):
        with open(path, "rb") as file:
            yield file.read()
    for _ in range(number):
        data = third_plans.text_of_any(chance)
        try:
            rules.read_plan(data)
        except rules.Refused:
            continue
        yield data


def lines(chance, number):
    """The lines of their traces, of all values."""
    for data in plans(chance, number):
        turns, names = trace_check.model(data)
        text = trace_check.written(trace_forms.Lines(), turns, names, True, chance.choice)
        yield from map(json.loads, text.splitlines())
    yield from BY_HAND


def kind(line):
    """Lines of one kind have the same members, and the same command."""
    return line.get("event"), line.get("ledger"), (line.get("command") or [None])[0], (*line.get("by", ()),)


def spoiled(line):
    """The same line with a member too few or too many, or one of another name or kind."""
    for name in line:
        rest = {other: value for other, value in line.items() if other != name}
        yield rest
        yield {**rest, f"{name}s": line[name]}
        yield {**line, name: [[]]}
        if isinstance(line[name], dict):
            yield from ({**line, name: part} for part in spoiled(line[name]))
    yield {**line, "more": 1}


def try_all(count, number, seed):
    """Counts lines of each kind of the examples and of so many random plans, and spoiled ones."""
    accept, chance = judges(), random.Random(seed)
    kinds = {}
    for line in lines(chance, number):
        kinds.setdefault(kind(line), {})[json.dumps(line)] = line
    for alike in kinds.values():
        some = chance.sample([*alike.values()], min(JUDGED, len(alike)))
        cases = [(line, True) for line in some] + [(wrong, False) for line in some[:SPOILED] for wrong in spoiled(line)]
        for at, (line, is_right) in enumerate(cases):
            # The library takes ten times as long.
            asked = accept if at == 0 else accept[:1]
            count.expect(f"the schema of {json.dumps(line)}", [accepts(line) for accepts in asked], [is_right] * len(asked))
