#!/usr/bin/env python3
"""What version 3 of the format says of plans, by rules.py and by the program: the rows of vectors.jsonl, which were worked out
by hand, each a plan with its report, or with the fault that it is refused with. And a plan of version 1 or 2 without a fault
keeps its report where its number is made 3, by both: those of scripts/, whose reports were worked out by hand, the examples,
and random plans. And random plans of version 3 say the same event by event, by players.py and by trace_model.py.

Usage: vectors.py PROGRAM COUNT SEED. Prints each plan that is answered otherwise, and `N passed, M failed` last.
"""

import glob
import json
import os
import random
import sys

TOP = os.path.dirname(os.path.dirname(os.path.dirname(os.path.abspath(__file__))))
sys.path.insert(0, os.path.join(TOP, "tests", "lib"))

import players
import random_plans
import rules
import running
import scripts
import third_plans
import trace_forms
import trace_model
import traces

LONGEST = 60000  # the bytes of a plan that is gone through event by event
ROWS = os.path.join(TOP, "tests", "rows")


def by_program(data):
    """What the program answers, by turns."""
    return running.unwarned(running.answer([sys.argv[1], "run", "--turns"], data))


def of_rows(count):
    with open(os.path.join(ROWS, "vectors.jsonl"), encoding="ascii") as rows:
        for row in map(json.loads, rows):
            refused, data = row.get("refused"), json.dumps(row["plan"]).encode()
            want = (1, "", f"{refused}\n") if refused else (0, row["report"], "")
            count.expect(row["name"], rules.answer(data), want)
            count.expect(f"{row['name']} by the program", by_program(data), want)


def made_three(data):
    """The plan's text with the number 3."""
    plan = json.loads(data)
    plan["version"] = 3
    return json.dumps(plan).encode()


def of_scripts(count):
    for path in sorted(glob.glob(os.path.join(ROWS, "scripts", "*.txt"))):
        for row in scripts.rows_of(path):
            want = (0, row.report(), "")
            count.expect(row.title, rules.answer(row.plan()), want)
            three = made_three(row.plan())
            count.expect(f"{row.title}, made 3", rules.answer(three), want)
            count.expect(f"{row.title}, made 3, by the program", by_program(three), want)


def of_examples(count):
    for path in sorted(glob.glob(os.path.join(TOP, "examples", "*.json"))):
        with open(path, "rb") as file:
            keeps(count, os.path.basename(path), file.read())


def of_random(count, plans, seed):
    rng = random.Random(seed)
    for number in range(plans):
        keeps(count, f"plan {number} of seed {seed}", random_plans.text(rng))


def keeps(count, what, data):
    """Counts a plan that is to keep its report; one with a fault has none."""
    want = rules.answer(data)
    if want[0] == 0:
        three = made_three(data)
        count.expect(f"{what}, made 3: {data!r}", rules.answer(three), want)
        count.expect(f"{what}, made 3, by the program: {data!r}", by_program(three), want)


def of_turns(count, plans, seed):
    """Random plans of version 3 event by event: by moves they say what rules.py says, and after any list of turns the run
    ends, with no ticket left."""
    rng = random.Random(seed)
    for number in range(plans):
        plan = third_plans.plan(rng)
        data = json.dumps(plan).encode()
        if len(data) < LONGEST and rules.answer(data)[0] == 0:
            moved, played = players.Cluster(rules.read_plan(data)), players.Cluster(rules.read_plan(data))
            moved.run_turns()
            lines = [line for player in moved.players for line in (f"agent {player.name}", *player.lines)]
            said = [line for line in rules.report(rules.read_plan(data)).splitlines()[:-3] if not line.startswith("end live")]
            count.expect(f"plan {number} of seed {seed} by moves: {data!r}", lines, said)
            for turn in players.turns_of(rng, len(plan["agents"])):
                played.step(played.players[turn])
            played.run_turns()
            count.expect(f"plan {number} of seed {seed} by turns: {data!r}", sum(played.ledger.tickets), 0)
            count.expect(f"plan {number} of seed {seed}, its trace: {data!r}", traced(rules.read_plan(data)), said)


def traced(plan):
    """The lines of the report, without the ends of agents, by the events of trace_model.py."""
    cluster = trace_model.Cluster(plan)
    lines = {name: [f"agent {name}"] for name in cluster.names}
    for turn in cluster.turns():
        told = trace_forms.told_of_agent(turn.event) if turn.event else ()
        if traces.REPORTED.match("".join(told[1:])):
            lines[turn.event["agent"]].append(told[1])
    return [line for agent in lines.values() for line in agent]


def main():
    count, plans, seed = running.Count(), int(sys.argv[2]), int(sys.argv[3])
    of_rows(count)
    of_scripts(count)
    of_examples(count)
    of_random(count, plans, seed)
    of_turns(count, plans, seed)
    count.end()


if __name__ == "__main__":
    main()
