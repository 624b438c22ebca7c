#!/usr/bin/env python3
"""Prints a plan for measuring, always the same one for the same words.

Usage: plans.py NAME [NUMBER [MORE]]. NAME is one of these, whose plans have one agent,
  start     nothing to do
  commands  NUMBER commands let, set, get and copy over 8 objects (1,000,000)
  new       NUMBER objects, none of them held for long (900,000)
  held      NUMBER objects, each held by the one made after it, and the last by a variable (900,000)
  wide      one object that holds NUMBER others; a collection while they are held, and one after (100,000)
  list      as held, with a collection while the list is held, and one after (300,000)
  entries-forward, entries-reversed, entries-shuffled
            one WeakMap with NUMBER entries, in which each key's value is the next key; a collection while the WeakMap
            and the first key are held, and one after; the entries are set from the first key on, from the last key
            back, or in an order as if at random (300,000)
  maps      NUMBER WeakMaps with an entry each, all of them and their keys held by properties; a collection while they
            are, and one after (150,000)
  nested    NUMBER WeakMaps with an entry each, whose value is the next WeakMap; a collection while the first WeakMap
            and all keys are held, and one after (150,000)
  registrations
            NUMBER registrations with one FinalizationRegistry, each with a target and a token of its own; then every
            second one is unregistered, and after it a collection empties the targets of the rest, for each of which the
            callback runs one command (200,000)
  check     NUMBER jobs of 2,670 commands over few variables, every tenth a `say` (1,000, which are 50 MB)
or of these, whose agents post messages:
  posts     one agent posts NUMBER numbers, in turn to as few others as have the jobs for them; each job takes a number
            and says it (7,000, to seven agents)
  ping-pong NUMBER posts to and fro between two agents, each job takes a message and posts it back; what is more than
            two agents can post goes to and fro between the next two (1,999)
  ring      the same in a ring of eight agents (7,999)
  words     NUMBER commands add, load and store of each of two agents, on one block (100,000)
  adds-shared
            NUMBER commands add of each of eight agents, all on one word: the first makes the block and posts it to the
            others, who wait for it, and at the end says the word (100,000)
  adds-own  the same on a block of its own of each, which says its word (100,000)
  lets      NUMBER commands let of each of eight agents, which ask nobody (100,000)
Since an agent has 1,000 jobs at most and a job takes one message at most, the numbers of posts, ping-pong and ring are
the largest of which each message is taken, with one ring. Of up to 10,000 posts those past 7,000 are drained; ping-pong
goes up to 7,996.
With wide the collections empty 0 and NUMBER + 1, with list 0 and NUMBER, with entries-* 1 (what held the keys while the
entries were set) and NUMBER + 2, with maps 0 and three times NUMBER, with nested 0 and twice NUMBER, with registrations
0 and twice NUMBER and one. Where there are entries, the value to which most of them lead is asked for after each
collection, by a WeakRef. MORE is how many collections there are besides, right after the first, which empty nothing.
"""

import json
import random
import sys

LONGEST = 10000  # the most commands that a job has
MOST = 1000  # the most jobs that an agent has
more = 0  # how many collections there are right after the first


def commands(count):
    """Each object gets and gives the same two properties over and over."""
    yield [["new", f"o{number}"] for number in range(8)]
    straight = []
    for number in range(8, count):
        at = f"o{number // 4 % 8}"
        straight.append(
            [
                ["let", "x", number],
                ["set", at, f"p{number % 2}", "x"],
                ["get", "y", at, f"p{number % 2}"],
                ["copy", "z", "y"],
            ][number % 4]
        )
    yield from jobs([[command] for command in straight])


def new(count):
    yield from jobs([[["new", "n"]]] * count)


def held(count):
    yield from jobs([[["new", "n"], ["set", "n", "next", "prev"], ["copy", "prev", "n"]]] * count)


def wide(count):
    yield [["new", "r"]]
    yield from jobs([[["new", "o"], ["set", "r", f"k{number}", "o"]] for number in range(1, count + 1)])
    yield two_collections("r", "o")


def linked(count):
    yield from held(count)
    yield two_collections("n", "prev")


def entries(order):
    """The keys are made and held first, so that the order in which the entries are set is all that differs."""

    def runs(count):
        numbers = list(range(count))
        if order == "reversed":
            numbers.reverse()
        elif order == "shuffled":
            random.Random(1).shuffle(numbers)
        yield [["weakmap", "m"], ["new", "r"]]
        yield from jobs([[["new", "o"], ["set", "r", f"k{number}", "o"]] for number in range(count + 1)])
        yield from jobs(
            [
                [["get", "a", "r", f"k{number}"], ["get", "b", "r", f"k{number + 1}"], ["wmset", "m", "a", "b"]]
                for number in numbers
            ]
        )
        yield [["get", "a", "r", "k0"], ["weakref", "w", "o"], *forgotten("b", "o", "r")]
        yield from collections_watched("m", "a")

    return runs


def maps(count):
    """Each WeakMap holds its key and the WeakMap before it by properties, and its entry's value by nothing else."""
    piece = [
        ["weakmap", "m"], ["new", "k"], ["new", "v"], ["wmset", "m", "k", "v"],
        ["set", "m", "key", "k"], ["set", "m", "next", "prev"], ["copy", "prev", "m"],
    ]
    yield [*piece, ["weakref", "w", "v"]]
    yield from jobs([piece] * (count - 1))
    yield forgotten("k", "v", "m")
    yield from collections_watched("prev")


def nested(count):
    """The WeakMaps are made from the innermost out; each key holds the one made before it by a property."""
    piece = [
        ["weakmap", "m"], ["new", "k"], ["wmset", "m", "k", "inner"],
        ["set", "k", "next", "keys"], ["copy", "inner", "m"], ["copy", "keys", "k"],
    ]
    yield [*piece, ["weakref", "w", "m"]]
    yield from jobs([piece] * (count - 1))
    yield forgotten("k", "inner")
    yield from collections_watched("m", "keys")


def registrations(count):
    """One object holds all tokens, each by a property, and a token holds its target, until the collection."""
    yield [["registry", "r", "cb"], ["new", "o"], ["let", "h", 1]]
    yield from jobs(
        [
            [
                ["new", "x"], ["new", "t"], ["set", "t", "p", "x"], ["set", "o", f"k{number}", "t"],
                ["register", "r", "x", "h", "t"],
            ]
            for number in range(count)
        ]
    )
    yield from jobs([[["get", "t", "o", f"k{number}"], ["unregister", "b", "r", "t"]] for number in range(0, count, 2)])
    yield [["say", "b"], *first_collections(), *forgotten("o", "x", "t")]
    yield [["collect"]]


def mixed(count):
    """Sets and gets properties of one object; every tenth command says a value. None is refused."""
    length = 2670
    for job in range(count):
        yield [["new", "o"] if job == 0 else ["copy", "y", "x"]] + [
            [
                ["let", "x", job * length + number],
                ["copy", "y", "x"],
                ["set", "o", f"p{number % 7}", "y"],
                ["get", "z", "o", f"p{number % 7}"],
                ["let", "t", f"text {number}"],
                ["set", "o", "t", "t"],
                ["copy", "u", "o"],
                ["get", "v", "u", "t"],
                ["copy", "w", "v"],
                ["say", "z"],
            ][number % 10]
            for number in range(1, length)
        ]


def posts(count):
    takers = [f"w{number}" for number in range(min(7, -(-count // MOST)))]
    pieces = [[["let", "x", number], ["post", takers[number % len(takers)], "x"]] for number in range(count)]
    yield "a", [{"run": run} for run in jobs(pieces)]
    for number, taker in enumerate(takers):
        taken = min(MOST, len(range(number, count, len(takers))))
        yield taker, [{"on": ["a", "m"], "run": [["say", "m"]]}] * taken


def rounds(names, count):
    """A message goes round the agents, until it was posted so often; who takes it then says it."""
    made = {name: [] for name in names}
    made[names[0]].append({"run": [["let", "m", 1], ["post", names[1], "m"]]})
    for number in range(1, count + 1):
        before, here, after = (names[at % len(names)] for at in (number - 1, number, number + 1))
        made[here].append({"on": [before, "m"], "run": [["post", after, "m"] if number < count else ["say", "m"]]})
    yield from made.items()


def ping_pong(count):
    most = 2 * MOST - 1
    for number, first in enumerate(range(0, count, most)):
        yield from rounds([f"a{number}", f"b{number}"], min(most, count - first))


def ring(count):
    yield from rounds([f"a{number}" for number in range(8)], count)


def words(count):
    """Each adds to the same word and stores to one of its own; at the end the second says all three."""

    def run(own):
        return [
            [["add", "x", "b", 0, 1], ["load", "x", "b", own], ["store", "b", own, number]][number % 3]
            for number in range(count)
        ]

    def straight(own):
        return [{"run": part} for part in jobs([[command] for command in run(own)])]

    def asked(index):
        return [["load", "x", "b", index], ["say", "x"]]

    made = {"run": [["buffer", "b", 3], ["post", "w", "b"]]}
    yield "a", [made, *straight(1), {"run": [["post", "w", "b"]]}]
    last = {"on": ["a", "c"], "run": [["sameblock", "s", "b", "c"], ["say", "s"], *asked(0), *asked(1), *asked(2)]}
    yield "w", [{"on": ["a", "b"], "run": []}, *straight(2), last]


def adds(shared):
    """At the end each of the others posts to the first, so that all have added before it says the word."""

    def agents(count):
        first, *others = (f"a{number}" for number in range(8))
        made, asked = ["buffer", "b", 1], [["load", "x", "b", 0], ["say", "x"]]
        given = [["post", other, "b"] for other in others if shared]
        adding = [{"run": run} for run in jobs([[["add", "x", "b", 0, 1]]] * count)]
        waited = [{"on": [other, "m"], "run": []} for other in others]
        yield first, [{"run": [made, *given]}, *adding, *waited, {"run": asked}]
        begun = {"on": [first, "b"], "run": []} if shared else {"run": [made]}
        done = {"run": [*asked * (not shared), ["let", "m", True], ["post", first, "m"]]}
        for other in others:
            yield other, [begun, *adding, done]

    return agents


def jobs(pieces):
    """Jobs of as many pieces as one job has room for; all pieces are as long as the first."""
    size = LONGEST // len(pieces[0]) if pieces else 1
    for first in range(0, len(pieces), size):
        yield [command for piece in pieces[first : first + size] for command in piece]


def forgotten(*names):
    return [["let", name, None] for name in names]


def first_collections():
    return [["collect"]] * (1 + more)


def two_collections(*names):
    return [*first_collections(), *forgotten(*names), ["collect"]]


def collections_watched(*names):
    """The two in jobs of their own, so that asking for the target of w keeps nothing alive."""
    asked = [["deref", "x", "w"], ["say", "x"]]
    yield [*first_collections(), *asked]
    yield [*forgotten("x", *names), ["collect"], *asked]


PLANS = {
    "start": (lambda _: [], 0),
    "commands": (commands, 1000000),
    "new": (new, 900000),
    "held": (held, 900000),
    "wide": (wide, 100000),
    "list": (linked, 300000),
    "entries-forward": (entries("forward"), 300000),
    "entries-reversed": (entries("reversed"), 300000),
    "entries-shuffled": (entries("shuffled"), 300000),
    "maps": (maps, 150000),
    "nested": (nested, 150000),
    "registrations": (registrations, 200000),
    "check": (mixed, 1000),
}
CALLBACKS = {"registrations": {"cb": [["copy", "last", "held"]]}}
def lets(count):
    """Eight agents beside each other, none of which asks the ledger for anything before its end."""
    for agent in "abcdefgh":
        yield agent, ({"run": run} for run in jobs([[["let", "x", number]] for number in range(count)]))


CLUSTERS = {
    "posts": (posts, 7000),
    "ping-pong": (ping_pong, 1999),
    "ring": (ring, 7999),
    "words": (words, 100000),
    "adds-shared": (adds(True), 100000),
    "adds-own": (adds(False), 100000),
    "lets": (lets, 100000),
}


def main():
    global more
    name = sys.argv[1] if len(sys.argv) in (2, 3, 4) else None
    if name not in PLANS and name not in CLUSTERS:
        sys.exit(__doc__)
    made, usual = PLANS.get(name) or CLUSTERS[name]
    count = int(sys.argv[2]) if len(sys.argv) > 2 else usual
    more = int(sys.argv[3]) if len(sys.argv) > 3 else 0
    agents = made(count) if name in CLUSTERS else [("a", ({"run": run} for run in made(count)))]
    # Job by job, since a plan as one value takes much memory.
    text = json.JSONEncoder(separators=(",", ":")).encode
    callbacks = text(CALLBACKS.get(name, {}))
    sys.stdout.write('{"version":1,"agents":[')
    for place, (agent, listed) in enumerate(agents):
        sys.stdout.write("," * (place > 0) + f'{{"name":{text(agent)},"callbacks":{callbacks},"jobs":[')
        for number, job in enumerate(listed):
            sys.stdout.write("," * (number > 0) + text(job))
        sys.stdout.write("]}")
    sys.stdout.write("]}\n")


main()
