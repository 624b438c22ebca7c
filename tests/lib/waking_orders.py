"""Small plans whose agents wait and notify at the same words, and every report that some order of their turns gives, by the
second implementation. What an agent does alone changes nothing for others; so orders of what they do together are enough:
accesses to words, waits and their ends, notifies, posts, takings and ends. A state that was met before is not gone through
again.
"""

import players
import rules

COUNTS = [[], [0], [1], [1], [2]]  # what stands behind a notify


class Player(players.Player):
    """A player that knows how many events it had, and whether its last one was one that others may see."""

    shared, had = False, 0

    def go_on(self):
        self.had += 1
        super().go_on()

    def access(self, word, operands):
        self.shared = True
        super().access(word, operands)

    def wait(self, operands):
        self.shared = True
        super().wait(operands)

    def wake(self):
        self.shared = True
        super().wake()

    def notify(self, operands):
        self.shared = True
        super().notify(operands)

    def post(self, receiver, value):
        self.shared = True
        super().post(receiver, value)

    def receive(self, sender, name):
        self.shared = True
        super().receive(sender, name)

    def skip(self):
        self.shared = True
        super().skip()

    def close(self):
        """Its end, whose line the report has."""
        self.shared = True
        self.end()

    def state(self):
        """What its next events depend on, and what it said."""
        sleep = self.sleep and (self.sleep.at, self.sleep.answer)
        return self.had, self.done, self.ended, sleep, tuple(sorted(self.variables.items())), tuple(self.lines)


class Cluster(players.Cluster):
    def __init__(self, plan):
        super().__init__(plan)
        self.players = [Player(agent, self.ledger) for agent in plan["agents"]]
        self.names = {player.name: player for player in self.players}

    def going(self):
        return [player for player in self.players if not player.ended]

    def choices(self):
        """Whose turn may come next: each that can go on, or else the first alone."""
        going = self.going()
        return [player.name for player in going if not self.stays(player)] or [player.name for player in going[:1]]

    def take(self, name):
        """The turns of an agent up to one that others may see, or to where it waits or sleeps."""
        chosen = self.names[name]
        if self.stays(chosen):
            for other in self.going()[1:]:
                self.step(other)  # each is told to wait
        chosen.shared = False
        while not chosen.shared and self.step(chosen) == "Moved":
            pass

    def state(self):
        ledger = self.ledger
        words = tuple(words and tuple(words) for words in ledger.words)
        asleep = tuple((at, tuple(self.asleep_at(at))) for at in sorted(ledger.sleepers))
        ports = tuple((ends, tuple(port)) for ends, port in sorted(ledger.ports.items()) if port)
        return words, asleep, ports, tuple(player.state() for player in self.players)

    def asleep_at(self, at):
        """Who sleeps at a word, in order."""
        return [player.name for sleep in self.ledger.sleepers[at] for player in self.players if player.sleep is sleep]

    def report(self):
        self.ledger.drain()
        lines = [line for player in self.players for line in (f"agent {player.name}", *player.lines)]
        return "\n".join([*lines, *self.ledger.lines()]) + "\n"


def reports_of(plan):
    """Each report that the plan, as it is read, may have."""
    reports, met, ahead = set(), set(), [()]
    while ahead:
        turns = ahead.pop()
        cluster = Cluster(plan)
        for name in turns:
            cluster.take(name)
        if not cluster.going():
            reports.add(cluster.report())
            continue
        state = cluster.state()
        if state not in met:
            met.add(state)
            ahead += [(*turns, name) for name in cluster.choices()]
    return reports


def plan(rng):
    """Two or three agents with one block: the first makes it and posts it to the others."""
    names = "abc"[: rng.choice([2, 2, 3])]
    most = 5 if len(names) == 2 else 3
    agents = []
    for name in names:
        others = [other for other in names if other != name]
        run = [step for _ in range(rng.randint(most - 2, most)) for step in together(rng, others)]
        if name == "a":
            jobs = [{"run": [["buffer", "m", 2], *(["post", other, "m"] for other in others), *run]}]
        else:
            jobs = [{"on": ["a", "m"], "run": run}]
        if rng.random() < 0.3:
            jobs.append({"on": [rng.choice(others), "k"], "run": [["say", "k"], *together(rng, others)]})
        agents.append({"name": name, "callbacks": {}, "jobs": jobs})
    return {"version": 3, "agents": agents}


def together(rng, others):
    """What an agent does with others, and says of it."""
    at, kind = rng.choice([0, 0, 0, 1]), rng.random()
    if kind < 0.4:
        return [["wait", "x", "m", at, rng.choice([0, 0, 0, 1])], ["say", "x"]]
    if kind < 0.7:
        return [["notify", "x", "m", at, *rng.choice(COUNTS)], ["say", "x"]]
    if kind < 0.8:
        return [["store", "m", at, rng.choice([0, 1])]]
    if kind < 0.95:
        return [rng.choice([["load", "x", "m", at], ["add", "x", "m", at, 1]]), ["say", "x"]]
    return [["let", "x", rng.randint(0, 9)], ["post", rng.choice(others), "x"]]
