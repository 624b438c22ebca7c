"""Random plans of version 3, whole and spoiled.

Most are of agents that share blocks: `grown` ones, where each agent's next job and command is chosen where the others have
come to, as in random_plans.py, with operands that are variables, commands that may be refused behind `try`, and agents that
wait and notify each other; talks that were written by hand, mixed; and agents of which several fall asleep at a word before
another notifies. The others are plans of versions 1 and 2 with the
number 3, with numbers in variables and commands behind `try`; and plans with faults.
"""

import json

import random_plans
import rules
from random_plans import NAMES, as_read, suits, written

MOST = 5  # agents
E = "r"  # the variable that gets most of what is caught
BUFFERS = random_plans.PLACES["buffer"]
# where most operands stand that are variables
NUMERALS = ["i", "j", "n"]
# what these hold, mostly: some become a number in range, others another, others none
VALUES = [
    0, 0, 0, 1, 1, 2, 3, -1, 4294967295, 4294967296, -4294967295, 9007199254740991, -9007199254740991, True, False, None,
    None,
    "", "  ", "0", "1", " 1 ", "+1", "-1", "-0", "007", "4294967296", "999999999999999", "-999999999999999",
    "1e3", "1.0", "0x1", "+", "- 1", "1 2", "one", "1000000000000000", "0000000000000001", "Infinity", "ok",
    "TypeError: not an object",
]
COUNTS = [0, 1, 1, 1, 2, 3, 8, 9, -1, -9007199254740991, 9007199254740991]
CHANGING = ["add", "sub", "and", "or", "xor", "exchange"]
# how often a step of a grown agent is which
STEPS = {
    "access": 30, "wait": 16, "notify": 14, "caught": 18, "numeral": 10, "suited": 16, "post": 6, "swap": 8, "later": 2,
    "cells": 6, "copied": 3, "orders": 5, "kept": 2,
}
# the commands that are drawn as in random_plans.py, with their weights
OFTEN = random_plans.OFTEN_SHARED_LATER | {"post": 4, "load": 2, "store": 2, "add": 2, "buffer": 4, "collectlater": 3}

# the same of an agent that is alone on an engine, which can be asked for no later collection
AT_ONCE = STEPS | {"access": 60, "wait": 2, "notify": 4, "later": 0, "post": 0, "caught": 26}
OFTEN_AT_ONCE = OFTEN | {"post": 0, "collectlater": 0}

# Talks of two agents or more, written as those of random_plans.py
TALKS = [
    # one that is woken, before and after another sleeps
    "buffer A 2; post @1 A; wait X A 0 0; say X; load Y A 0; say Y | on @0 M; store M 0 5; notify N M 0; say N",
    "buffer A 1; post @1 A; / on @1 X; wait Y A 0 0; say Y | on @0 M; let X 1; post @0 X; wait Y M 0 0; say Y; "
    "notify N M 0; say N",
    # a notify that comes before the wait, and one for a word at which nobody sleeps
    "buffer A 2; post @1 A; notify N A 0; say N | on @0 M; wait X M 0 0; say X; notify N M 1; say N",
    # two that sleep at a word, and one that takes one of them, none, or both
    "buffer A 1; post @1 A; post @2 A; wait X A 0 0; say X | on @0 M; wait X M 0 0; say X "
    "| on @0 M; notify N M 0 1; say N; notify N M 0 1; say N; notify N M 0; say N",
    "buffer A 1; post @1 A; post @2 A; / on @1 X; wait Y A 0 0; say Y "
    "| on @0 M; let X 1; post @0 X; wait Y M 0 0; say Y | on @0 M; let C -1; notify N M 0 C; say N; notify N M 0 1; say N",
    # counts that are not written, undefined, no number, or no text that is a numeral
    "buffer A 1; post @1 A; wait X A 0 0; say X | on @0 M; notify N M 0 U; say N",
    "buffer A 1; post @1 A; wait X A 0 0; say X | on @0 M; let C 0; notify N M 0 C; say N; try R notify N M 0 M; say R; "
    "say N",
    # who waits for a message and who sleeps: the lower goes on first
    "buffer A 1; post @1 A; / on @1 X; say X; / notify N A 0; say N | on @0 M; wait X M 0 0; say X; post @0 X",
    "buffer A 1; post @1 A; wait X A 0 0; say X; / on @1 X; say X | on @0 M; / on @0 M; say M; post @0 M",
    # three of which all sleep, each at a word of its own or all at one; each that goes on wakes the next
    "buffer A 3; post @1 A; post @2 A; wait X A 0 0; say X; notify N A 1; say N "
    "| on @0 M; wait X M 1 0; say X; notify N M 2; say N | on @0 M; wait X M 2 0; say X; notify N M 0; say N",
    "buffer A 1; post @1 A; post @2 A; wait X A 0 0; say X; notify N A 0 1; say N "
    "| on @0 M; wait X M 0 0; say X; notify N M 0; say N | on @0 M; wait X M 0 0; say X",
    # a lock: who finds it taken sleeps
    "buffer A 2; compareexchange X A 0 0 1; say X; post @1 A; post @2 A; add Y A 1 1; exchange X A 0 0; notify N A 0 1; "
    "say N "
    "| on @0 M; compareexchange X M 0 0 1; say X; wait Y M 0 1; say Y; exchange X M 0 0; say X; notify N M 0 1; say N "
    "| on @0 M; compareexchange X M 0 0 1; say X; wait Y M 0 1; say Y; exchange X M 0 0; say X; notify N M 0 1; say N",
    # a list is the word's, and not that of one buffer over the block: a buffer that came twice
    "buffer A 1; post @1 A; post @1 A; wait X A 0 0; say X | on @0 M; copy A M; / on @0 M; sameblock X A M; say X; "
    "notify N M 0; say N",
    # a sleeper holds a block alone, keeps alive, and has a collection open
    "buffer A 1; post @1 A; let A null; collect | on @0 M; wait X M 0 0; say X; load Y M 0; say Y; let M null; collect",
    "new A; weakref W A; let A null; buffer B 1; post @1 B; wait X B 0 0; collect; deref A W; say A; / collect; deref A W; "
    "say A "
    "| on @0 M; notify N M 0; say N",
    "new A; let A null; buffer B 1; post @1 B; collectlater; wait X B 0 0; say X; try R collect; say R | on @0 M; "
    "notify N M 0; say N",
    # a caught refusal leaves the job, its variables and what it keeps
    "try R weakref W R; say R; say W; try R new R; say R; try R keys R; buffer A 1; post @1 A; try R load X A 1; say R; "
    "say X "
    "| on @0 M; try R post @0 R; say R; new A; try R post @0 A; say R; try R wait X M 0 A; say R; say X",
    # a refusal is posted
    "try R keys R; post @1 R | on @0 M; let X \"TypeError:_not_an_object\"; same X M X; say X; try R weakref W M; "
    "same X R M; say X",
    # messages wake nobody
    "buffer A 1; post @1 A; wait X A 0 0; say X; / on @1 M; say M | on @0 M; let X 1; post @0 X; post @0 X",
    # callbacks that sleep, one after the other, while others are due
    "registry f cb; registry g _x; new A; new B; let X 1; let Y 2; register f A X; register f B Y; register g A Y; "
    "buffer d 1; "
    "post @1 d; let A null; let B null; collect; / say X | on @0 M; notify N M 0; say N; let X 1; post @0 X; "
    "/ notify N M 0; say N",
    "registry f cb; new A; weakref W A; let X 1; register f A X; buffer d 1; post @1 d; let A null; / collect; / deref A W; "
    "say A; "
    "notify N d 0; say N | on @0 d; wait X d 0 0; say X; notify N d 0; say N",
    # one that has ended is in no list, and a notifier that was refused
    "buffer A 1; post @1 A; wait X A 0 0; say X; post @1 X | on @0 M; load X M 1; notify N M 0; / on @0 M; say M",
]
# what callbacks do
CALLS = [
    "say held; wait X d 0 0; say X", "wait X held 0 0; say X; notify N held 0; say N", "notify N d 0 1; say N; say held",
    "try R keys held; say R; say held", "try R weakref W held; say R; keys held",
    "try R deref X held; say X; wait X d 0 X; say X",
    "try R load X d held; say R; say X", "notify N d held; say N",
    "try R wait X d held held; say R; say X; notify N d 0; say N",
    "say held; try R post @1 held; say R",
]

# Faults, and what is none beside them. The first in their order counts.
FAULTS = [
    # a form
    ["sub", "x", "b", 0], ["sub", "x", "b", 0, 1, 2], ["and", "x", "b", None, 1], ["or", "x", "b", 0, True],
    ["xor", "x", "b", [], 0],
    ["exchange", "x", "b", {}, 0], ["exchange", 1, "b", 0, 0], ["compareexchange", "x", "b", 0, 0],
    ["compareexchange", "x", "b", 0, 0, None], ["compareexchange", "1x", "b", 1.5, 0, False], ["wait", "x", "b", 0],
    ["wait", "x", "b", 0, 0, 0], ["wait", "x", None, 0, 0], ["notify", "x", "b"], ["notify", "x", "b", 0, None],
    ["notify", "x", "b", 0, 1, 2], ["notify", "1x", "b", 0, []], ["load", "x", "b", None], ["load", "1x", "b", None],
    ["store", "b", False, 1], ["store", "b", 0, None], ["add", "x", "b", "i", {}], ["buffer", "x", "n"],
    ["compareExchange", "x", "b", 0, 0, 0],
    ["Wait", "x", "b", 0, 0], ["waitasync", "x", "b", 0, 0], ["try"], ["try", "e"], ["try", "e", 1], ["try", 1, "new", "x"],
    ["try", None, "new", "x"], ["try", "e", None, "x"], ["try", "e", ["new", "x"]], ["try", "e", "new"],
    ["try", "1e", "new", "x", "x"],
    ["try", "e", "try", "f", "new", "x"], ["try", "1e", "try"], ["try", "e", "nothing"], ["try", "e", "let", "x", []],
    ["try", "1e", "load", "x", "b", None], ["try", "e", "buffer", "x", "n"], ["try", "e", "collect", "x"],
    ["Try", "e", "new", "x"],
    # a callback's
    ["try", "e", "collect"], ["try", "1e", "collect"], ["try", "1e", "collectlater"], ["try", "e", "collectlater"],
    # a name
    ["load", "x", "b", "1i"], ["load", "x", "b", ""], ["load", "x", "b", "a" * 33], ["store", "b", "i", "x-"],
    ["sub", "x", "b", "", "n"],
    ["sub", "1x", "b", 1.5, 0], ["compareexchange", "x", "b", 0, 0, "\u00e9"],
    ["compareexchange", "x", "b", "i", "1n", 1.5],
    ["notify", "x", "b", 0, "1c"], ["wait", "x", "1b", 1.5, 0], ["wait", "x", "b", "0", 0], ["try", "1e", "new", "x"],
    ["try", "e", "new", "1x"], ["try", "1e", "let", "x", 1.5], ["try", "1e", "post", "nobody", "x"],
    ["try", "", "say", "x"],
    # what is not there
    ["try", "e", "registry", "x", "nobody"], ["try", "e", "post", "nobody", "1x"], ["try", "e", "post", "nobody", "x"],
    # a number or a text
    ["sub", "x", "b", 1.5, 0], ["sub", "x", "b", 1.5, "1x"], ["wait", "x", "b", 0, -0.0],
    ["notify", "x", "b", 0, 9007199254740992],
    ["compareexchange", "x", "b", 0, 1.5, "1x"], ["compareexchange", "x", "b", 0, 0, 1e3], ["try", "e", "let", "x", 1.5],
    ["try", "e", "symbolfor", "x", "\u00e9"], ["load", "x", "b", 1.0], ["try", "e", "store", "b", 0, -9007199254740992],
    # a number of words
    ["try", "e", "buffer", "x", 16385], ["try", "e", "buffer", "x", -1], ["try", "e", "buffer", "x", 16384],
    # none
    ["load", "x", "b", "i"], ["store", "b", "i", "n"], ["notify", "x", "b", "i"], ["notify", "x", "b", "i", "c"],
    ["try", "e", "say", "x"],
    ["compareexchange", "x", "b", "i", "n", "p"], ["wait", "x", "b", "i", "n"], ["try", "try", "wait", "x", "b", -1, "n"],
]


def value_step(rng, name):
    """A variable gets a value that is an operand, of one kind or another."""
    return rng.choice([
        *[["let", name, rng.choice(VALUES)]] * 16, ["new", name], ["symbol", name],
        ["symbolfor", name, rng.choice(["k", "1"])],
        ["copy", name, rng.choice(BUFFERS)],
    ])


def tried(rng, step, name=None):
    """The command behind `try`, and often what was caught."""
    name = name or (E if rng.random() < 0.8 else rng.choice(NAMES))
    return [["try", name, *step], *([["say", name]] if rng.random() < 0.6 else [])]


class Sleeper(random_plans.Growing):
    """An agent that is grown, and waits and notifies at few words of blocks that the first agent opened."""

    def __init__(self, rng, plan, ledger, agents, steps=STEPS, often=OFTEN):
        super().__init__(rng, plan, ledger, agents, often)
        self.steps, self.left = steps, rng.choice([1, 2, 2, 3, 3, 4])

    def is_first(self):
        return self.name == next(iter(self.agents))

    def waiting(self):
        """The first jobs of the others wait for a block."""
        if self.done == 0 and not self.is_first() and self.rng.random() < 0.9:
            return {"on": [next(iter(self.agents)), "d"]}
        return super().waiting() if self.rng.random() < 0.5 else {}

    def chosen(self):
        if self.done == 1:
            yield from self.begun()
        for _ in range(self.rng.randint(1, 8)):
            yield from self.step()

    def look(self):
        yield from super().look()
        yield [["say", name] for name in NUMERALS]

    def begun(self):
        if self.is_first():
            yield [["buffer", "d", self.rng.choice([1, 1, 1, 2, 2, 3])]]
            yield [["post", name, "d"] for name in self.others()]
        elif self.rng.random() < 0.2:
            yield [["buffer", "e", self.rng.choice([0, 1, 2])]]
        if self.rng.random() < 0.4:
            yield [["registry", name, self.rng.choice(random_plans.CALLBACKS)] for name in random_plans.PLACES["registry"]]
        yield [value_step(self.rng, name) for name in NUMERALS]

    def step(self):
        """Lists of commands, each of which is done before the next is drawn."""
        kind = self.rng.choices(list(self.steps), list(self.steps.values()))[0]
        if kind == "suited":
            steps = list(random_plans.suited(self.rng, self, self.often if self.others() else self.often | {"post": 0}))
            yield from (tried(self.rng, step) if self.rng.random() < 0.15 else [step] for step in steps)
            return
        yield from getattr(self, f"{kind}_steps")()

    def access_steps(self):
        word = self.rng.choice(["load", "load", "store", "compareexchange", "compareexchange", *CHANGING])
        operands = self.operands(word)
        step = [word, *(operands[use] for use in rules.USES[word])]
        yield tried(self.rng, step) if self.rng.random() < 0.2 else [step]
        if "x" in operands and self.rng.random() < 0.7:
            yield [["say", operands["x"]]]

    def wait_steps(self):
        operands = self.operands("wait")
        step = ["wait", *(operands[use] for use in rules.USES["wait"])]
        yield tried(self.rng, step) if self.rng.random() < 0.2 else [step]
        yield [["say", operands["x"]]]

    def notify_steps(self):
        operands = self.operands("notify")
        step = ["notify", *(operands[use] for use in rules.USES["notify"])]
        if self.rng.random() < 0.55:
            step.append(self.rng.choice([self.rng.choice(COUNTS), self.rng.choice([*NUMERALS, *NAMES])]))
        yield tried(self.rng, step) if self.rng.random() < 0.2 else [step]
        yield [["say", operands["x"]]]

    def caught_steps(self):
        """Any command behind `try`, which is mostly refused."""
        step = random_plans.shared_command(self.rng, self.others())
        if self.rng.random() < 0.4:
            step = self.rng.choice([
                ["weakref", "w", E], ["keys", E], ["post", *self.others()[:1], "x"] if self.others() else ["keys", E],
                ["load", "x", "d", self.rng.choice([*NUMERALS, -1, 9])], ["wait", "x", "d", 0, self.rng.choice(NUMERALS)],
                ["register", "f", "f", "f"], ["collect"], ["length", E, E], ["store", "d", "n", "i"],
            ])
        yield tried(self.rng, step)

    def numeral_steps(self):
        yield [value_step(self.rng, self.rng.choice(NUMERALS))]

    def copied_steps(self):
        """What a command gave is an operand from then on."""
        yield [["copy", self.rng.choice(NUMERALS), self.rng.choice(["x", "y", E])]]

    def post_steps(self):
        if self.others():
            yield [["post", self.receiver(), self.rng.choice(["d", "d", "x", "y", E, *NUMERALS])]]

    def swap_steps(self):
        """A word is changed, and who waits for that is woken."""
        at = self.index("d")
        yield [["store", "d", at, self.rng.choice([0, 0, 1, "n"])], ["notify", "x", "d", at]]
        yield [["say", "x"]]

    def later_steps(self):
        """A sleep while a collection is open."""
        yield [["new", "w"], ["let", "w", None], ["collectlater"], ["wait", "x", "d", 0, 0], ["say", "x"]]
        yield tried(self.rng, ["collect"])

    def kept_steps(self):
        """What is kept alive stays so where a refusal is caught, and over a sleep."""
        yield [["new", "o"], ["weakref", "w", "o"], ["let", "o", None]]
        yield [self.rng.choice([["try", E, "keys", E]] * 3 + [["wait", "x", "d", 0, 0]])]
        yield [*([["collect"]] if not self.open else []), ["deref", "o", "w"], ["say", "o"], ["let", "o", None]]

    def orders_steps(self):
        """A command of which several operands are refused, each for another reason."""
        word = self.rng.choice(["load", "store", "wait", "notify", "compareexchange", "compareexchange", *CHANGING])
        yield [["let", "j", self.rng.choice(["one", "+", "1e3"])], ["let", "i", -1], [self.rng.choice(["symbol", "new"]), "n"]]
        numbers = [*NUMERALS, "j", "n", 0]
        operands = {use: self.rng.choice(numbers) for use in "inpq"}
        operands |= {"x": "x", "b": self.rng.choice(["d", "d", "d", "d", "u"])}
        uses = rules.USES[word] + rules.ONE_MORE_USE.get(word, "")
        yield from ([step] for step in tried(self.rng, [word, *(operands[use] for use in uses)]))
        yield [["say", "x"], *(value_step(self.rng, name) for name in NUMERALS)]

    def cells_steps(self):
        """Registrations of which the callbacks come after the job."""
        held = self.rng.choice(["d", "n", "x"])
        if suits(self, "r", "f"):
            yield [step for _ in range(self.rng.randint(1, 3)) for step in (["new", "o"], ["register", "f", "o", held])]
            yield [["let", "o", None], ["collect"]]

    # Operands

    def operands(self, word):
        """Operands of a command on a word, by what they are for, which mostly are none that are refused."""
        buffers = [name for name in [*BUFFERS, *NAMES] if suits(self, "b", name)]
        name = self.rng.choice(buffers if buffers and self.rng.random() < 0.97 else NAMES)
        operands = {"x": self.rng.choice(["x", "y", "x", "y", "c", *NUMERALS]), "b": name, "i": self.index(name)}
        operands["n"] = self.number_for(word, name, operands["i"])
        operands["p"] = self.rng.choice([self.rng.choice(random_plans.NUMBERS), 0, 1, self.rng.choice([*NUMERALS, *NAMES])])
        return operands

    def sound(self, name):
        """The number that a variable becomes, if it does."""
        try:
            return self.as_number(name)
        except rules.TypeRefused:
            return None

    def index(self, name):
        words = len(self.words(name)) if suits(self, "b", name) else 0
        if self.rng.random() < 0.55:
            return self.rng.choice([0, 0, 0, 0, max(words - 1, 0), *([-1, words] if self.rng.random() < 0.1 else [])])
        right = [one for one in [*NUMERALS, *NAMES, "u"] if self.sound(one) is not None and 0 <= self.sound(one) < words]
        return self.rng.choice(right if right and self.rng.random() < 0.85 else NUMERALS)

    def number_for(self, word, name, index):
        """A number; where one is compared, often the one that is there."""
        if word in ("wait", "compareexchange") and suits(self, "b", name) and self.rng.random() < 0.7:
            at = index if isinstance(index, int) else self.sound(index)
            words = self.words(name)
            if at is not None and 0 <= at < len(words):
                sound = [one for one in [*NUMERALS, *NAMES] if self.sound(one) is not None]
                same = [one for one in sound if self.sound(one) % 2**32 == words[at]]
                return self.rng.choice([words[at], words[at] - 2**32, *same[:1]])
        return self.rng.choice([self.rng.choice(random_plans.NUMBERS), self.rng.choice([*NUMERALS, *NUMERALS, *NAMES])])


def callback(rng, others):
    """What a callback does, often with what version 3 has."""
    if rng.random() < 0.4:
        return random_plans.callback(rng, others)
    texts = [text for text in CALLS if others or "@1" not in text]
    return [*written(rng, rng.choice(texts), ["", *others[:1]])]


def agents_of(rng, names):
    agents = []
    for name in names:
        others = [other for other in names if other != name]
        callbacks = {call: callback(rng, others) for call in random_plans.CALLBACKS}
        agents.append({"name": name, "callbacks": callbacks, "jobs": []})
    return agents


def grown(rng):
    agents = agents_of(rng, rng.sample(random_plans.AGENTS, rng.choice([1, 2, 2, 3, 3, 3, 4, 5])))
    ledger, growing = rules.Ledger(), {}
    for agent in agents:
        calls = random_plans.without_collections(agent["callbacks"])
        growing[agent["name"]] = Sleeper(rng, {**agent, "callbacks": calls}, ledger, growing)
    rules.run_turns(growing)
    return {"version": 3, "agents": agents}


def talks(rng):
    """Talks, one after the other, in which jobs end, and other commands stand, here and there."""
    agents = agents_of(rng, rng.sample(random_plans.AGENTS, rng.randint(3, MOST)))
    for _ in range(rng.randint(1, 4)):
        talk = random_plans.roles(rng.choice(TALKS))
        speaking = rng.sample(agents, len(talk)) if rng.random() < 0.5 else agents[: len(talk)]
        names = [agent["name"] for agent in speaking]
        for agent, text in zip(speaking, talk):
            run_on(rng, agent, [None, *in_words(rng, text, names)], random_plans.others_of(agent, agents))
    return {"version": 3, "agents": agents}


def alone(rng):
    """A plan of one agent that can be run on an engine's own objects: without later collections."""
    agents = agents_of(rng, ["a"])
    calls = random_plans.without_collections(agents[0]["callbacks"])
    growing = Sleeper(rng, {**agents[0], "callbacks": calls}, rules.Ledger(), {"a": None}, AT_ONCE, OFTEN_AT_ONCE)
    rules.run_turns({"a": growing})
    return {"version": 3, "agents": agents}


def gathered(rng):
    """Agents of which several fall asleep at a word, in an order that is not theirs, before another notifies, and goes on so;
    those that are woken may wake others."""
    agents = agents_of(rng, rng.sample(random_plans.AGENTS, rng.randint(2, MOST)))
    names = [agent["name"] for agent in agents]
    first, notifier, at = names[0], rng.choice(names), rng.choice([0, 0, 0, 1])
    jobs = {name: [{"on": [first, "d"], "run": []}] for name in names}
    jobs[first] = [{"run": [["buffer", "d", rng.choice([1, 2, 2])], *(["post", name, "d"] for name in names[1:])]}]
    sleepers = [name for name in rng.sample(names, len(names)) if name != notifier and rng.random() < 0.85]
    for before, name in zip([None, *sleepers], sleepers):
        wait = ["wait", "x", "d", rng.choice([at, at, at, 0]), rng.choice([0, 0, 0, "n"])]
        told = [["post", other, "n"] for other in (*sleepers[sleepers.index(name) + 1 :][:1], notifier)]
        chained = [["notify", "y", "d", at, rng.choice([1, 1, 2, "n"])], ["say", "y"]]
        then = rng.choice([[], [], chained, [["post", notifier, "x"]]])
        run = [*told, *(tried(rng, wait) if rng.random() < 0.2 else [wait]), ["say", "x"], *then]
        jobs[name].append({"on": [before, "m"], "run": run} if before and rng.random() < 0.8 else {"run": run})
    jobs[notifier] += [{"on": [name, "m"], "run": []} for name in sleepers]
    for _ in range(rng.randint(1, 3)):
        count = rng.choice([[], [], [1], [2], [rng.choice([*COUNTS, "n", "u"])]])
        changed = [["add", "y", "d", at, 1]] * (rng.random() < 0.3)
        jobs[notifier].append({"run": [*changed, ["notify", "x", "d", rng.choice([at, at, at, 0]), *count], ["say", "x"]]})
    for agent in agents:
        agent["jobs"] = jobs[agent["name"]]
    return {"version": 3, "agents": agents}


def in_words(rng, text, names):
    """The commands of a talk. A literal text stands between quotation marks there, with `_` for each blank."""
    for step in written(rng, text, names):
        yield [literal(word) for word in step] if step else step


def literal(word):
    return word[1:-1].replace("_", " ") if isinstance(word, str) and word.startswith('"') else word


def run_on(rng, agent, steps, others):
    """Puts commands last into an agent's jobs, some behind `try`, and the jobs that they begin."""
    jobs = agent["jobs"]
    for step in steps:
        begins = step is not None and step[0] == "on"
        if step is None or (not begins and rng.random() < 0.03):
            jobs.append({"run": []})
        if rng.random() < 0.03:
            jobs[-1]["run"] += tried(rng, random_plans.shared_command(rng, others))
        if begins:
            jobs[-1]["on"] = step[1:]
        elif step is not None:
            caught = step[0] != "try" and rng.random() < 0.06
            jobs[-1]["run"] += tried(rng, step) if caught else [step]


def in_variables(rng, plan):
    """The plan, of version 1 or 2, with some of its numbers in variables, other changes of words in the place of some of
    its additions, and some of its commands behind `try`."""
    for agent in plan["agents"]:
        for job in agent["jobs"]:
            job["run"] = [done for step in job["run"] for done in widened(rng, step)]
    return {**plan, "version": 3}


def widened(rng, step):
    step = exchanged(rng, step)
    uses, before, wide = rules.USES[step[0]], [], [*step]
    for place, use in enumerate(uses, 1):
        if use in "in" and rng.random() < 0.5:
            before.append(["let", NUMERALS[place % 3], step[place] if rng.random() < 0.7 else f" {step[place]}"])
            wide[place] = before[-1][1]
    return [*before, *(tried(rng, wide) if rng.random() < 0.15 else [wide])]


def exchanged(rng, step):
    """The command, or another that changes a word in the place of `add`."""
    if step[0] != "add" or rng.random() < 0.3:
        return step
    if rng.random() < 0.3:
        return ["compareexchange", *step[1:], rng.choice(random_plans.NUMBERS)]
    return [rng.choice(CHANGING), *step[1:]]


def many(rng):
    """More than an agent can open or post, or a run of many commands, behind `try`."""
    agents = agents_of(rng, rng.sample(random_plans.AGENTS, 2))
    step, most = rng.choice([(["post", agents[1]["name"], "y"], 10000), *[(["buffer", "y", 0], 256)] * 3])
    run = [step] * (most - 1) + [["try", E, *step], ["say", E]] * 2 + [["say", "y"], step, step, ["say", "y"]]
    tries = [["try", E, "keys", "y"]] * rng.choice([1, 10000, 10001])
    agents[0]["jobs"] = [{"run": run[:5000]}, {"run": run[5000:]}, {"run": tries}]
    return {"version": 3, "agents": agents}


def faulty(rng):
    """A plan with one fault or more, mostly."""
    plan = rng.choice([grown, talks])(rng) if rng.random() < 0.6 else {**random_plans.doubtful_plan(rng), "version": 3}
    runs = [*runs_of(plan)]
    for _ in range(rng.choice([1, 1, 1, 2, 3])):
        if runs:
            run = rng.choice(runs)
            run.insert(rng.randint(0, len(run)), rng.choice(FAULTS))
    return {**plan, "version": rng.choice([3] * 12 + [1, 2, 4])}


def early(rng):
    """A plan of version 1 or 2 with the number 3."""
    version = rng.choice(random_plans.VERSIONS)
    if rng.random() < 0.4:
        kinds = [random_plans.lives, random_plans.tables, random_plans.registrations]
        return in_variables(rng, random_plans.plan_of(rng, rng.choice(kinds), version))
    return in_variables(rng, random_plans.shared_plan(rng, version))


def runs_of(drawn):
    """The lists of commands of a plan, of its callbacks and of its jobs."""
    for agent in drawn["agents"]:
        yield from agent["callbacks"].values()
        yield from (job["run"] for job in agent["jobs"])


def plan(rng):
    """A plan of version 3, which few faults are put into."""
    return rng.choices([grown, talks, gathered, early, many, faulty], [46, 16, 12, 10, 2, 14])[0](rng)


def text(rng):
    value = plan(rng)
    if rng.random() < 0.06:
        value = random_plans.spoil(rng, value)
    if rng.random() < 0.2:
        value = random_plans.reordered(rng, value)
    return json.dumps(value, ensure_ascii=rng.random() < 0.5).encode()


def text_of_any(rng):
    """A plan of any version, whole or spoiled."""
    return text(rng) if rng.random() < 0.4 else random_plans.text(rng)
