"""Random plans of one agent about one thing each: what KeptAlive has, chains and tables of WeakMaps, registrations.

Each gives the commands of jobs, one list for each, and the callbacks by their names. Jobs end where `None` stands."""

END = None


def jobs_of(steps):
    """The steps as lists, one for each job."""
    jobs = [[]]
    for step in steps:
        if step is END:
            jobs.append([])
        else:
            jobs[-1].append(step)
    return jobs


def drop(*names):
    return [["let", name, None] for name in names]


def look(name, weakref):
    """Asks a WeakRef, says what it gave, and holds it no longer."""
    return [["deref", name, weakref], ["say", name], *drop(name)]


# KeptAlive


class Targets:
    """Targets with several WeakRefs each. `refs` has the names of the WeakRefs that are held, by target."""

    def __init__(self, rng):
        self.rng, self.refs, self.made = rng, {}, 0

    def make(self):
        """A new target that only WeakRefs have in the end, and now and then what leads on from it."""
        target = len(self.refs)
        yield [self.rng.choice(["new"] * 5 + ["symbol", "weakmap", "weakset"]), "t"]
        self.refs[target] = [*self.names(self.rng.randint(2, 4))]
        yield from (["weakref", name, "t"] for name in self.refs[target])
        if self.rng.random() < 0.3:
            yield from self.led_to(target)
        if self.rng.random() < 0.3:
            yield from [["let", "h", target], ["register", "f", "t", "h"]]
        yield from drop("t")

    def names(self, count):
        for _ in range(count):
            self.made += 1
            yield f"w{self.made}"

    def led_to(self, target):
        """What the target leads to as a key, or by a property, with a WeakRef that is asked as if it were the target's."""
        [name] = self.names(1)
        yield ["new", "s"]
        yield self.rng.choice([["wmset", "m", "t", "s"], ["wmset", "m", "t", "s"], ["set", "t", "p", "s"]])
        yield from [["weakref", name, "s"], *drop("s")]
        self.refs[target].append(name)

    def ask(self):
        """A deref, or a new WeakRef, keeps a target, and goes; a collection; the target's others are asked."""
        rng = self.rng
        target = rng.choice([*self.refs])
        names = self.refs[target]
        if not names:
            return
        first = rng.choice(names)
        yield ["deref", "b", first]
        if rng.random() < 0.4:
            yield ["weakref", "v", "b"]
        yield from drop("b", "v")
        if rng.random() < 0.7:
            names.remove(first)
            yield from drop(first)
        yield from (["new", "c"] for _ in range(rng.randint(0, 2)))
        yield from [["collect"]] * rng.choice([0, 1, 1, 1, 2])
        for name in rng.sample(names, min(len(names), rng.randint(1, 3))):
            yield from look("b", name)


def kept(rng):
    callbacks = {"c": rng.choice([[], [["say", "held"]], [["deref", "b", "w1"], ["say", "b"], *drop("b")]])}
    targets, steps = Targets(rng), [["registry", "f", "c"], ["weakmap", "m"]]
    for _ in range(rng.randint(1, 3)):
        steps += targets.make()
    for _ in range(rng.randint(2, 6)):
        steps += [END] if rng.random() < 0.8 else []
        steps += targets.make() if rng.random() < 0.1 else targets.ask()
    return jobs_of([*steps, END, ["collect"], END, ["collect"]]), callbacks


# Chains and tables


def ephemerons(rng):
    """Keys in the properties of a holder, maps, and entries between them, forward, backward or in any order, in chains or
    at random; the holder and some maps are held no longer; then what is left is read, and some of it deleted."""
    count, maps = rng.choice([3, 5, 9, 17, 40]), [f"m{number}" for number in range(rng.randint(1, 5))]
    steps = [["new", "h"], *(["weakmap", name] for name in maps)]
    for number in range(count + 1):
        kind = rng.choice(["new"] * 4 + ["symbol", "weakset"])
        steps += [[kind, "k"], ["set", "h", f"k{number}", "k"]]
    links = [(rng.choice(maps), *link) for link in links_between(rng, count)]
    for table, key, value in rng.choice([links, links[::-1], rng.sample(links, len(links))]):
        steps += [["get", "k", "h", f"k{key}"], ["get", "x", "h", f"k{value}"], ["wmset", table, "k", "x"]]
    if len(maps) > 1 and rng.random() < 0.4:
        # the last map is led to by an entry alone
        steps += [["get", "k", "h", "k0"], ["wmset", "m0", "m0", maps[-1]], *drop(maps[-1])]
        links = [link for link in links if link[0] != maps[-1]]
    steps += [["get", "first", "h", "k0"], ["get", "x", "h", f"k{count}"], ["weakref", "w", "x"], *drop("k", "x")]
    steps += drop("h") if rng.random() < 0.7 else []
    return jobs_of([*steps, *reading(rng, links, maps)]), {}


def links_between(rng, count):
    """Which key has which as its value: a chain, a tree, or at random, also round to where it began."""
    kind = rng.random()
    if kind < 0.5:
        return [(number, number + 1) for number in range(count)]
    if kind < 0.8:
        return [(number // 2, number) for number in range(1, count + 1)]
    return [(rng.randint(0, count), rng.randint(0, count)) for _ in range(count)]


def reading(rng, links, maps):
    """Collections, after each of which entries are followed from the first key on."""
    for _ in range(rng.randint(1, 3)):
        yield from [END, ["collect"], *look("x", "w"), ["copy", "k", "first"]]
        for table, _, _ in links[: rng.randint(0, len(links))]:
            yield from [["wmhas", "x", table, "k"], ["say", "x"], ["wmget", "k", table, "k"]]
            yield ["say", "k"]
        yield from drop("k", "x")
        if rng.random() < 0.3:
            yield ["wmdelete", "x", rng.choice(maps), "first"]
        if rng.random() < 0.2:
            yield from drop(rng.choice(["first", "h"]))


def tables(rng):
    """Large WeakMaps and WeakSets whose members a holder has: some go, others are added, all are asked for."""
    count, symbols = rng.choice([9, 20, 70, 150]), rng.random() < 0.3
    steps, there = [["new", "h"], ["weakmap", "m"], ["weakset", "s"]], []
    for number in range(count):
        steps += [["symbol" if symbols and number % 3 == 0 else "new", "k"], ["let", "x", number], ["wmset", "m", "k", "x"]]
        steps += [["wsadd", "s", "k"]] * (number % 2) + [["set", "h", f"k{number}", "k"]]
        there.append(number)
    for _ in range(rng.randint(1, 3)):
        steps += [*drop("k"), END]
        for number in rng.sample(there, len(there) // rng.randint(2, 5)):
            steps += rng.choice([[["delete", "x", "h", f"k{number}"]], asked("wmdelete", "m", number)])
            there.remove(number)
        steps += [["collect"]]
        for number in there:
            steps += [*asked("wmget", "m", number), ["wshas", "x", "s", "k"], ["say", "x"]]
    return jobs_of(steps), {}


def asked(word, table, number):
    return [["get", "k", "h", f"k{number}"], [word, "x", table, "k"], ["say", "x"]]


# Registrations

HELD = [
    ["let", "v", None], ["let", "v", True], ["let", "v", 7], ["let", "v", "a text"], ["symbol", "v"], ["new", "v"],
    ["symbolfor", "v", "k"], ["copy", "v", "f1"], ["weakmap", "v"], ["copy", "v", "h"],
]


def registries(rng):
    """Many registrations, with held values of each kind that they alone may hold, and tokens that several share, or that
    are targets; targets go a few at a time, and some of what awaits is unregistered, in callbacks as well."""
    called = [
        [], [["say", "held"]], [["unregister", "x", "f1", "held"], ["say", "x"]], [["new", "n"], ["register", "f2", "n", "held"]],
        [["unregister", "x", "f1", "o1"], ["say", "x"]], [["deref", "x", "w"], ["say", "x"], *drop("x")],
    ]
    callbacks = {"c": rng.choice(called), "d": rng.choice(called)}
    steps = [["registry", "f1", "c"], ["registry", "f2", "d"], ["new", "h"], ["new", "o1"], ["symbol", "o2"], ["new", "t"]]
    steps += [["weakref", "w", "t"]]
    count = rng.randint(4, 24)
    for number in range(count):
        steps += [[rng.choice(["new"] * 4 + ["symbol"]), "t"], ["set", "h", f"t{number}", "t"], rng.choice(HELD)]
        token = rng.choice([[], ["o1"], ["o2"], ["t"], ["h"]])
        steps += [["register", rng.choice(["f1", "f1", "f2"]), "t", "v", *token]] * rng.choice([1, 1, 1, 2])
    steps += drop("t", "v")
    there = [*range(count)]
    for _ in range(rng.randint(2, 5)):
        steps += [END, *(["let", "held", None] for _ in range(rng.randint(0, 1)))]
        for number in rng.sample(there, min(len(there), rng.randint(0, 6))):
            steps += [["delete", "x", "h", f"t{number}"]]
            there.remove(number)
        steps += [["collect"]] * rng.randint(0, 2)
        if rng.random() < 0.6:
            steps += unregistering(rng, there)
    return jobs_of([*steps, END, ["collect"]]), callbacks


def unregistering(rng, there):
    """By a token, or by a target that is its own token."""
    if there and rng.random() < 0.5:
        yield ["get", "t", "h", f"t{rng.choice(there)}"]
        yield from [["unregister", "x", rng.choice(["f1", "f2"]), "t"], ["say", "x"], *drop("t")]
    else:
        yield from [["unregister", "x", rng.choice(["f1", "f2"]), rng.choice(["o1", "o2", "h"])], ["say", "x"]]
