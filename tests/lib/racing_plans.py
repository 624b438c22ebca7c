"""Random plans of two to five agents that share words, of which about half have no race.

Most are `grown`: each agent's next job and command is chosen where the others have come to in the run by turns, as in
random_plans.py. A careful agent makes no access that races with one before it; a careless one makes some. In others
blocks go from hand to hand, and in half of these some agents use a block once more after they posted it on. The rest are
of agents that share, from random_plans.py.
"""

import json

import raceless_plans
import racing
import random_plans
import rules

MOST = 5  # agents
LONGEST = 6000  # the bytes of a plan
CALLBACKS = ["cb", "ca"]
BUFFERS = ["b", "c", "m", "n"]
READS = ["x", "y"]
NUMBERS = [0, 0, 1, 1, 2, 7, -1, 4294967296]
# how often a step is which
STEPS = {
    "access": 60, "say": 5, "post": 16, "buffer": 2, "copy": 3, "property": 3, "same": 2, "let": 2, "collect": 2, "entry": 2,
    "odd": 2,
}


class Sharer(racing.Marking, random_plans.Growing):
    """An agent that is grown. `care` is how likely it looks before an access whether it races."""

    def __init__(self, rng, plan, ledger, agents, care):
        super().__init__(rng, plan, ledger, agents, {})
        self.left, self.care = rng.choice([2, 3, 3, 4, 5]), care

    def filled(self):
        return [name for name in BUFFERS if random_plans.suits(self, "b", name)]

    def is_first(self):
        return self.name == next(iter(self.agents))

    def waiting(self):
        sender = self.first_sender() if self.done == 0 else self.later_sender()
        return {"on": [sender, self.taken_into(sender)]} if sender else {}

    def first_sender(self):
        return None if self.is_first() or self.rng.random() < 0.1 else next(iter(self.agents))

    def later_sender(self):
        """One of whom a message is there, or one that has not ended, or any, or nobody."""
        there = [name for name in self.others() if self.ledger.ports[name, self.name]]
        going = [name for name in self.others() if not self.agents[name].ended]
        drawn = self.rng.choices([there, going, self.others(), []], [6, 3, 0.3, 3])[0]
        return self.rng.choice(drawn) if drawn else None

    def taken_into(self, sender):
        """The variable for what is taken, which mostly is one for such a value."""
        port = self.ledger.ports[sender, self.name]
        is_block = port[0][0] == "block" if port else self.rng.random() < 0.5
        return self.rng.choice((BUFFERS if is_block else READS) if self.rng.random() < 0.95 else ["b", "z"])

    def chosen(self):
        if self.done == 1:
            yield from self.begun()
        for _ in range(self.rng.randint(1, 6)):
            yield self.step()

    def begun(self):
        """A block for others, and a registration whose callback comes after the job, now and then."""
        if self.rng.random() < (0.95 if self.is_first() else 0.1):
            yield [["buffer", "b", self.rng.choice([1, 1, 2, 3])]]
            yield from (self.access_of("store") for _ in range(self.rng.randint(0, 2)))
            yield from ([["post", name, "b"]] for name in self.others() if self.rng.random() < 0.9)
        if self.rng.random() < 0.25:
            held = self.rng.choice(["b", "y"])
            yield [["registry", "f", self.rng.choice(CALLBACKS)], ["new", "o"], ["register", "f", "o", held]]
            yield [["let", "o", None], ["collect"]]

    def look(self):
        """What it read, and words that it may read."""
        yield from ([["say", name]] for name in READS)
        for _ in range(3):
            yield self.access_of("load")

    def step(self):
        kind = self.rng.choices(list(STEPS), list(STEPS.values()))[0]
        one, other = self.rng.sample(READS, 2)
        match kind:
            case "access":
                return self.access_of(self.rng.choice(["load", "load", "store", "store", "add"]))
            case "post":
                return [["post", self.receiver(), self.rng.choice([*self.filled(), *READS])]]
            case "buffer":
                return [["buffer", self.rng.choice(BUFFERS[:2]), self.rng.choice([1, 2, 3])]]
            case "property":
                return [["new", "o"], ["set", "o", "p", one], ["get", other, "o", "p"]]
            case "entry":
                return [["weakmap", "w"], ["wmset", "w", "w", one], ["wmget", other, "w", "w"]]
            case "same":
                return [["same", "z", one, other], ["say", "z"]]
            case "let":
                return [["let", self.rng.choice([*BUFFERS, *READS]), self.rng.choice([None, 0, 1, "k"])]]
            case "odd":
                return [random_plans.shared_command(self.rng, self.others())]
        return [[kind, other, one] if kind == "copy" else [kind, one] if kind == "say" else [kind]]

    def access_of(self, word):
        """An access, which mostly is none that is refused, and what follows it; nothing where each would race."""
        if not self.filled() and self.rng.random() < 0.95:
            return []
        for _ in range(6):
            name, step = self.drawn(word)
            if self.rng.random() > self.care or not self.would_race(step):
                told = [["say", step[1]]] if word != "store" and self.rng.random() < 0.5 else []
                posted = [["post", self.receiver(), self.rng.choice([name, *READS])]]
                return [step, *told, *(posted if self.rng.random() < 0.35 else [])]
        return []

    def drawn(self, word):
        name = self.rng.choice(self.filled() or BUFFERS)
        words = len(self.words(name)) if random_plans.suits(self, "b", name) else 0
        at = self.rng.randrange(words) if words and self.rng.random() < 0.97 else self.rng.choice([-1, words])
        operands = {"x": self.rng.choice(READS), "b": name, "i": at, "n": self.rng.choice(NUMBERS)}
        return name, [word, *(operands[use] for use in rules.USES[word])]

    def would_race(self, step):
        """Whether this access would race with one before it."""
        step = random_plans.as_read(step)
        operands = dict(zip(rules.USES[step[0]], step[1:]))
        try:
            at = self.word_at(operands["b"], operands["i"])
        except rules.TypeRefused:
            return False
        knew = self.ledger.known.knows[self.name]
        access = racing.Access((self.name, self.ledger.made[self.name]), 0, at, step, "", knew)
        return any(racing.race(earlier, access) for earlier in self.ledger.accesses)


def callback(rng):
    """Accesses to what the variables have, also to what is held, which may race."""
    run = [["say", "held"]]
    for _ in range(rng.randint(0, 2)):
        buffer = rng.choice(["held", "b", "m"])
        run += rng.choice([[["load", "x", buffer, 0], ["say", "x"]], [["store", buffer, 0, 5]], [["add", "y", buffer, 0, 1]]])
    return run


def grown(rng):
    """A plan whose agents are careful, or careless, or one of whom is. Mostly there is a word for which they could race."""
    names = rng.sample(random_plans.AGENTS, rng.choice([2, 2, 3, 3, 4, 5]))
    cares = rng.choice([[1] * 5, [1] * 5, [1] * 5, [0.9] * 5, [0.5] * 5, [0] * 5, [1, 0, 1, 1, 1], [1, 1, 1, 0.7, 0.7]])
    for _ in range(rng.choice([1, 8, 8, 8])):
        agents = [{"name": name, "callbacks": {call: callback(rng) for call in CALLBACKS}, "jobs": []} for name in names]
        ledger, growing = racing.Ledger(), {}
        for agent, care in zip(agents, cares):
            growing[agent["name"]] = Sharer(rng, agent, ledger, growing, care)
        rules.run_turns(growing)
        if racing.shares(ledger.accesses):
            break
    return {"version": 1, "agents": agents}


def handed_on(rng):
    """A plan in which blocks go from hand to hand. In half of these some are used once more after they were posted on."""
    plan = raceless_plans.handed_on(rng)
    if rng.random() < 0.5:
        return plan
    for agent in plan["agents"]:
        for job in agent["jobs"]:
            if ["let", "m", None] in job["run"] and rng.random() < 0.15:
                job["run"].insert(job["run"].index(["let", "m", None]), ["add", "y", "m", rng.randrange(4), 1])
    return plan


def shared(rng):
    return random_plans.shared_plan(rng, rng.choice(random_plans.VERSIONS))


def random_plan(rng):
    """A plan without a fault, as it is written and as it is read."""
    while True:
        plan = rng.choices([grown, handed_on, shared], [84, 12, 4])[0](rng)
        data = json.dumps(plan).encode()
        if not 2 <= len(plan["agents"]) <= MOST or len(data) > LONGEST:
            continue
        try:
            return data, rules.read_plan(data)
        except rules.Refused:
            continue
