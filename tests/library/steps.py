#!/usr/bin/env python3
"""Clusters whose agents C moves, by the Python module embed/clusterrun.py and by the C program embed/step.c, beside
turns.py's cluster, which knows the rules alone: what each turn came to, the lines that the agent said, the tickets after
it, and the report in the end, of which what is left is run by turns. Random plans by random lists of turns; all examples
by the order that a run by turns has; and calls that are refused.

Usage: steps.py PROGRAM FOLDER COUNT SEED. FOLDER has libclusterrun.so and `step`, which is embed/step.c; COUNT is how
many random plans there are. Prints each answer that differs, how many turns were of what kind, and `N passed, M failed`
last.
"""

import collections
import glob
import os
import random
import subprocess
import sys
import tempfile

TOP = os.path.dirname(os.path.dirname(os.path.dirname(os.path.abspath(__file__))))
sys.path.insert(0, os.path.join(TOP, "tests", "lib"))

import players
import rules

PROGRAM, FOLDER = os.path.abspath(sys.argv[1]), os.path.abspath(sys.argv[2])
os.environ["CLUSTERRUN_LIBRARY"] = os.path.join(FOLDER, "libclusterrun.so")
sys.path.insert(0, os.path.join(TOP, "embed"))
import clusterrun

EXAMPLES = sorted(glob.glob(os.path.join(TOP, "examples", "*.json")))
NAMES = {"Moved": clusterrun.Turn.MOVED, "Waiting": clusterrun.Turn.WAITS, "Ended": clusterrun.Turn.ENDED}
WORDS = {turn: name for name, turn in NAMES.items()}


class Model:
    """The cluster of turns.py, asked as the library is."""

    def __init__(self, plan):
        self.cluster = players.Cluster(plan)

    def step(self, agent):
        player = self.cluster.players[agent]
        before = len(player.lines)
        progress = self.cluster.step(player)
        return progress, text_of(player.lines[before:])

    def said(self, agent):
        return text_of(self.cluster.players[agent].lines)

    def audit(self):
        return clusterrun.Counts(*map(int, self.cluster.audit().partition(":")[0].split(" ")[1:]))

    def end(self):
        self.cluster.run_turns()
        lines = []
        for player in self.cluster.players:
            lines += [f"agent {player.name}", *player.lines, last_line(player)]
        return text_of([*lines, *self.cluster.ledger.lines()])


def last_line(player):
    """The totals of an agent's registrations."""
    awaiting = sum(cell.target[1] in player.gone for cell in player.cells.values())
    live = len(player.cells) - awaiting
    return f"end live {live} awaiting {awaiting} unregistered {player.unregistered} taken {player.taken}"


def text_of(lines):
    return "".join(f"{line}\n" for line in lines).encode()


def by_program(plan):
    """The report of a plan by turns, as the program gives it."""
    ran = subprocess.run([PROGRAM, "run", "--turns"], input=plan, capture_output=True, timeout=60, check=False)
    return ran.stdout


def stepped(cluster, model, order, kinds):
    """The turns of this order, and what the library and the model say after each."""
    for agent in order:
        progress, lines = model.step(agent)
        kinds[progress] += 1
        yield (NAMES[progress], lines), (cluster.step(agent), cluster.said(agent))
        yield model.audit(), cluster.audit()


def random_orders(count, seed, kinds):
    """Random plans by random lists of turns, and what each agent said in all; some are given up before their end."""
    rng = random.Random(seed)
    for number in range(count):
        data, plan = players.a_plan(rng)
        order = players.turns_of(rng, len(plan["agents"]))
        name = f"plan {number} of seed {seed}: {data!r} by {order}"
        with clusterrun.Cluster(data) as cluster:
            model = Model(plan)
            yield len(plan["agents"]), cluster.agents, name
            for wanted, got in stepped(cluster, model, order, kinds):
                yield wanted, got, name
            for agent in range(cluster.agents):
                yield model.said(agent), cluster.said(agent, 0), f"all lines of agent {agent}, {name}"
                yield b"", cluster.said(agent), f"new lines of agent {agent}, {name}"
            if number % 5:
                yield model.end(), cluster.end(), f"the report, {name}"
            else:
                kinds["given up"] += 1


def by_turns(plan):
    """The order of turns that a run by turns has, from the rules alone."""
    cluster = players.Cluster(plan)
    while going := [player for player in cluster.players if not player.ended]:
        player = next((player for player in going if not cluster.stays(player)), going[0])
        if cluster.stays(player):
            # Each that stays is asked, so that all wait, before the first is told to skip its job.
            yield from (number for number, other in enumerate(cluster.players) if not other.ended)
        yield cluster.players.index(player)
        if player.awaits() and not player.has_message(player.next_job()):
            player.skip()
            continue
        player.go_on()
        while not player.rests and not player.ended:
            yield cluster.players.index(player)
            player.go_on()


def example_plans(kinds):
    """Each example by the order of a run by turns: its report is the one beside it, and the program's."""
    for path in EXAMPLES:
        with open(path, "rb") as file:
            data = file.read()
        with open(path.removesuffix(".json") + ".report", "rb") as file:
            report = file.read()
        plan = rules.read_plan(data)
        with clusterrun.Cluster(data) as cluster:
            for agent in by_turns(plan):
                kinds[WORDS[cluster.step(agent)]] += 1
            yield [clusterrun.Turn.ENDED] * cluster.agents, [cluster.step(n) for n in range(cluster.agents)], path
            yield report, cluster.end(), path
        yield report, by_program(data), f"the program, {path}"
        with clusterrun.Cluster(data) as cluster:
            yield report, cluster.end(), f"not moved, {path}"
        order = "01" * 30
        yield by_c_wanted(plan, order), by_c(path, order), f"C, {path}"


def by_c(path, order):
    """What embed/step.c writes."""
    ran = subprocess.run([os.path.join(FOLDER, "step"), path, order], capture_output=True, timeout=60, check=False)
    return ran.returncode, ran.stdout, ran.stderr


def by_c_wanted(plan, order):
    """What it is to write."""
    words = {"Moved": b"moved", "Waiting": b"waits", "Ended": b"ended"}
    model, out = Model(plan), b""
    for agent in map(int, order):
        if agent < len(plan["agents"]):
            progress, lines = model.step(agent)
            out += b"agent %d %s\n" % (agent, words[progress]) + lines
        else:
            out += b"agent %d no such agent\n" % agent
        out += b"%d blocks, %d released, tickets: %d in agents, %d in messages\n" % model.audit()
    return 0, out + model.end(), b""


def refused_calls():
    """A plan with a fault, an agent that is not there, and a cluster that is given up."""
    faulty = b'{"version":1,"agents":[{"name":"a","callbacks":{},"jobs":[{"run":[["new","o"],["get","x","o"]]}]}]}'
    with tempfile.NamedTemporaryFile() as file:
        file.write(faulty)
        file.flush()
        yield (1, b"", rules.answer(faulty)[2].encode()), by_c(file.name, "0"), "C, a plan with a fault"
    with open(EXAMPLES[0], "rb") as file:
        plan = file.read()
    cluster = clusterrun.Cluster(plan)
    calls = {
        "a plan with a fault": (clusterrun.Refused, lambda: clusterrun.Cluster(faulty)),
        "no such agent": (IndexError, lambda: cluster.step(cluster.agents)),
        "lines of no such agent": (IndexError, lambda: cluster.said(-1)),
    }
    over = {
        "a turn": lambda: cluster.step(0),
        "lines": lambda: cluster.said(0),
        "tickets": cluster.audit,
        "a report": cluster.end,
    }
    for name, (error, call) in calls.items():
        yield error, error_of(call), name
    cluster.close()
    cluster.close()
    for name, call in over.items():
        yield ValueError, error_of(call), f"{name} of a cluster that is given up"


def error_of(call):
    try:
        call()
    except (clusterrun.Refused, IndexError, ValueError) as error:
        return type(error)
    return None


def main():
    count, seed = int(sys.argv[3]), int(sys.argv[4])
    passed, failed, kinds = 0, 0, collections.Counter()
    for answers in (example_plans(kinds), refused_calls(), random_orders(count, seed, kinds)):
        for wanted, got, name in answers:
            if wanted == got:
                passed += 1
            else:
                failed += 1
                print(f"FAILED: {name}\n  wanted {wanted}\n  got {got}")
    print(f"of {count} plans: " + ", ".join(f"{kind} {number}" for kind, number in sorted(kinds.items())))
    print(f"{passed} passed, {failed} failed")
    return 1 if failed else 0


if __name__ == "__main__":
    sys.exit(main())
