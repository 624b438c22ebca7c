#!/usr/bin/env python3
"""How often random plans of version 3 have each event, each refusal and each fault, by rules.py alone. Each is to come up.

Usage: third_kinds.py COUNT SEED. Prints each kind with how often it came up, and `N passed, M failed` last: a kind of those
that are named below passes where it came up.
"""

import collections
import os
import random
import sys

TOP = os.path.dirname(os.path.dirname(os.path.dirname(os.path.abspath(__file__))))
sys.path.insert(0, os.path.join(TOP, "tests", "lib"))

import rules
import running
import third_plans

# `limit: values` would take a plan of a million commands.
REFUSALS = [
    "TypeError: not an object", "TypeError: not a WeakRef", "TypeError: not a WeakMap", "TypeError: not a WeakSet",
    "TypeError: not a FinalizationRegistry", "TypeError: not a SharedArrayBuffer", "TypeError: cannot be held weakly",
    "TypeError: target and held value are the same", "RangeError: index", "DataCloneError: value cannot be posted",
    "limit: blocks", "limit: posts", "a collection is open", "TypeError: cannot be converted to a number", "limit: texts",
]
KINDS_OF_VALUES = {
    "undefined": "a variable that is undefined", "boolean": "a variable with a boolean", "number": "a variable with a number",
    "symbol": "a symbol", "registered": "a registered symbol", "object": "an object",
}
OPERANDS = ["a number", "a text with a numeral", "a text of blanks", "another text", *KINDS_OF_VALUES.values()]
WAITS = [
    "wait: not-equal", "wait: sleeps", "wait: ok", "wait: timed-out", "wait: sleeps behind try", "wait: sleeps in a callback",
    "wait: sleeps behind others", "wait: sleeps with a collection open", "wait: sleeps and keeps alive",
    "wait: sleeps and holds a block alone", "wait: sleeps with cleanup jobs due", "wait: sleeps in a job that took a message",
    "wait: the word has changed when it is woken",
]
COUNTS = ["not written", "undefined", "below 0", "0", "1", "2 to 7", "8 or more"]
NOTIFIES = [
    "notify: wakes 0", "notify: wakes 1", "notify: wakes 2 or more", "notify: leaves some", "notify: in a callback",
    "notify: others sleep at another word", "notify: takes one before a lower one",
    *(f"notify: count {count}" for count in COUNTS),
]
DEADLOCKS = [
    "stuck: one sleeps", "stuck: several sleep", "stuck: the lowest sleeps, others wait for messages",
    "stuck: the lowest waits for a message, others sleep", "stuck: all wait for messages",
]
TURNS = [
    "turn: skipped, as the sender ended", "turn: the rest of a job after a sleep", "turn: a message comes for one that sleeps",
]
KINDS = [
    "ran", *(f"refused S{code}" for code in (2, 3, 5, 6, 7, 8, 9, 10)),
    *(f"{how}: {text}" for text in REFUSALS for how in ("uncaught", "caught")), "try: not refused",
    *(f"done: {word}" for word in rules.SINCE_THREE), "compareexchange: the word changes", "compareexchange: the word stays",
    *(f"operand: {kind}" for kind in OPERANDS), *WAITS, *NOTIFIES, *DEADLOCKS, *TURNS,
]


class Counted(rules.Agent):
    """An agent that counts what it does."""

    def __init__(self, plan, ledger, seen, place):
        super().__init__(plan, ledger)
        self.seen, self.of = seen, place
        self.tries = self.was_refused = self.cleans = self.took = False

    def see(self, kind):
        self.seen[kind] += 1

    def do(self, word, args):
        try:
            line = super().do(word, args)
        except rules.TypeRefused as refused:
            self.see(f"{'caught' if self.tries else 'uncaught'}: {refused}")
            self.was_refused = True
            raise
        if word in rules.SINCE_THREE:
            self.see(f"done: {word}")
        return line

    def tried(self, name, command):
        self.tries, self.was_refused = True, False
        line = super().tried(name, command)
        self.tries = False
        if not self.was_refused:
            self.see("try: not refused")
        return line

    def receive(self, sender, name):
        super().receive(sender, name)
        self.took = True

    def job(self, job):
        self.took = False
        yield from super().job(job)

    def cleanup_job(self, registry):
        self.cleans, self.took = True, False
        yield from super().cleanup_job(registry)
        self.cleans = False

    def as_number(self, operand):
        self.see(f"operand: {self.kind_of(operand)}")
        return super().as_number(operand)

    def kind_of(self, operand):
        if isinstance(operand, rules.Number):
            return "a number"
        kind, *value = self.value(operand)
        if kind != "text":
            return KINDS_OF_VALUES[kind]
        numeral = rules.NUMERAL.match(value[0])
        return "another text" if not numeral else "a text with a numeral" if numeral[1] else "a text of blanks"

    def access(self, word, operands):
        words = self.words(operands["b"])
        before = [*words]
        super().access(word, operands)
        if word == "compareexchange":
            self.see(f"compareexchange: the word {'stays' if words == before else 'changes'}")

    def wait(self, operands):
        super().wait(operands)
        if not self.sleep:
            self.see("wait: not-equal")
            return
        block, index = self.sleep.at
        self.sleep.agent, self.sleep.word = self, self.ledger.words[block][index]
        self.see("wait: sleeps")
        sleepers = len(self.ledger.sleepers[self.sleep.at])
        of_this = {
            "behind try": self.tries, "in a callback": self.cleans, "behind others": sleepers > 1,
            "with a collection open": self.open, "and keeps alive": self.kept, "with cleanup jobs due": self.queue,
            "and holds a block alone": self.ledger.tickets[block] == 1, "in a job that took a message": self.took,
        }
        for kind in filter(of_this.get, of_this):
            self.see(f"wait: sleeps {kind}")

    def wake(self):
        block, index = self.sleep.at
        self.see(f"wait: {self.sleep.answer}")
        if self.sleep.answer == "ok" and self.ledger.words[block][index] != self.sleep.word:
            self.see("wait: the word has changed when it is woken")
        super().wake()

    def notify(self, operands):
        super().notify(operands)
        if self.cleans:
            self.see("notify: in a callback")

    def most_woken(self, operand):
        count = super().most_woken(operand)
        value = None if operand is None else self.value(operand) if isinstance(operand, str) else ("number", operand.whole())
        if value is None or value[0] == "undefined":
            self.see(f"notify: count {'undefined' if value else 'not written'}")
        else:
            number = self.as_number(operand)
            kind = "below 0" if number < 0 else "8 or more" if number > 7 else "2 to 7" if number > 1 else number
            self.see(f"notify: count {kind}")
        return count


class Ledger(rules.Ledger):
    """A ledger that counts whom a `notify` takes."""

    def __init__(self, seen):
        super().__init__()
        self.seen = seen

    def notify(self, block, index, count):
        before = [*self.sleepers[block, index]]
        woken = super().notify(block, index, count)
        self.seen[f"notify: wakes {woken}" if woken < 2 else "notify: wakes 2 or more"] += 1
        places = [sleep.agent.of for sleep in before]
        self.seen["notify: leaves some"] += woken < len(before)
        self.seen["notify: takes one before a lower one"] += woken > 0 and places[:woken] != sorted(places)[:woken]
        self.seen["notify: others sleep at another word"] += any(
            sleeps for at, sleeps in self.sleepers.items() if at != (block, index)
        )
        return woken

    def post(self, sender, receiver, message):
        self.seen["turn: a message comes for one that sleeps"] += any(
            sleep.agent.name == receiver for sleeps in self.sleepers.values() for sleep in sleeps
        )
        super().post(sender, receiver, message)


def count_turn(agents, going, seen):
    """Counts what comes next, by who of those that have not ended can move. Gives who moves."""
    able = [agent for agent in going if not rules.stays(agent, agents)]
    if able:
        job = able[0].next_job()
        if able[0].sleep:
            seen["turn: the rest of a job after a sleep"] += 1
        elif job and "on" in job and not able[0].has_message(job):
            seen["turn: skipped, as the sender ended"] += 1
        return able[0]
    asleep = [bool(agent.sleep) for agent in going]
    kind = "several sleep" if len(going) > 1 else "one sleeps"
    if not any(asleep):
        kind = "all wait for messages"
    elif not all(asleep):
        kind = "the lowest sleeps, others wait for messages" if asleep[0] else "the lowest waits for a message, others sleep"
    seen[f"stuck: {kind}"] += 1
    return going[0]


def run(plan, seen):
    """Runs a plan, and gives the lines of its agents."""
    ledger = Ledger(seen)
    agents = {agent["name"]: Counted(agent, ledger, seen, place) for place, agent in enumerate(plan["agents"])}
    while going := [agent for agent in agents.values() if not agent.ended]:
        count_turn(agents, going, seen).move()
    return "\n".join(line for agent in agents.values() for line in agent.lines)


def drawn(plans, seed):
    """What came up in so many plans."""
    rng, seen = random.Random(seed), collections.Counter()
    for _ in range(plans):
        data = third_plans.text(rng)
        try:
            plan = rules.read_plan(data)
        except rules.Refused as refused:
            seen[" ".join(str(refused).split()[:2])] += 1
            continue
        seen["ran"] += 1
        assert rules.report(plan).startswith(run(plan, seen)), data  # what counts goes the same way
    return seen


def main():
    count, seen = running.Count(), drawn(int(sys.argv[1]), int(sys.argv[2]))
    for kind in [*KINDS, *sorted(set(seen) - set(KINDS))]:
        print(f"{seen[kind]:8} {kind}")
    for kind in KINDS:
        count.add(kind, None if seen[kind] else "it never came up")
    count.end()


if __name__ == "__main__":
    main()
