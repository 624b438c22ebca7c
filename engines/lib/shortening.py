"""The shortest plan that still shows something: agents, jobs, callbacks and commands are dropped while it is shown."""

import copy
import json

import rules
from drawing import runs_of

MOST_ROUNDS = 60


def is_accepted(plan):
    try:
        rules.read_plan(json.dumps(plan).encode())
    except rules.Refused:
        return False
    return True


def parts_of(plan):
    """The lists of a plan of which parts can be dropped, the largest parts first."""
    return [plan["agents"], *(agent["jobs"] for agent in plan["agents"])] + [
        run for agent in plan["agents"] for run in runs_of(agent)
    ]


def without(plan, pieces):
    """The plan without these pieces, each so many parts of one of its lists, and without callbacks that nothing names."""
    smaller = copy.deepcopy(plan)
    parts = parts_of(smaller)
    for place, start, count in sorted(pieces, reverse=True):
        del parts[place][start : start + count]
    for agent in smaller["agents"]:
        steps = [rules.bared(step) for run in runs_of(agent) for step in run]
        named = {step[2] for step in steps if step[:1] == ["registry"] and len(step) == 3}
        agent["callbacks"] = {name: run for name, run in agent["callbacks"].items() if name in named}
    return smaller


def pieces_of(plan, count):
    """The pieces of so many parts."""
    return [(place, start, count) for place, part in enumerate(parts_of(plan)) for start in range(0, len(part), count)]


def accepted_without(plan, groups):
    """The groups of pieces that can be dropped together, with the plans without them."""
    smaller = [(group, without(plan, group)) for group in groups]
    return [(group, plan) for group, plan in smaller if is_accepted(plan)]


def groups_of(pieces):
    """All of them, halves, quarters, and so on, down to each alone."""
    size = len(pieces)
    while size > 1:
        yield from (pieces[start : start + size] for start in range(0, len(pieces), size))
        size = (size + 1) // 2


def size(plan):
    return sum(len(part) for part in parts_of(plan))


def showing(tried, shows):
    """Of groups of pieces with the plans without them those that show it."""
    return [one for one, is_shown in zip(tried, shows([plan for _, plan in tried])) if is_shown]


def shrink(plan, shows):
    """`shows` is asked of many plans at once, and says of each whether it shows it. Pieces that can be dropped each alone
    are then dropped together, as far as that shows it too."""
    count = max(len(part) for part in parts_of(plan))
    for _ in range(MOST_ROUNDS):
        alone = showing(accepted_without(plan, [[piece] for piece in pieces_of(plan, count)]), shows)
        if alone:
            together = accepted_without(plan, groups_of([piece for group, _ in alone for piece in group]))
            plan = min((smaller for _, smaller in [*alone, *showing(together, shows)]), key=size)
        elif count == 1:
            break
        else:
            count = max(1, count // 2)
    return plan
