"""Whether some order of what several agents did at once explains all that each of them gave.

Each agent is followed alone first, as far as the others do not matter: what a command on a word gave, the engine tells,
and the nth message of an agent to another is the nth that it posted. That leaves of each agent a list of events that
others can see. Then an order of all events is looked for in which each word has what was read, a message is taken after
it was posted, and a job is skipped where no message is there. The search is exact, up to a bound of what is tried.
"""

import collections

import following
import interleaving
import rules

MOST_TRIED = 200000  # so many moments are looked at before it is given up

# What others can see: a word that is read, where `old` is not None, and written, where `change` is not; and what is done
# with a port: a message is posted, taken, or missed by a job that is skipped.
Word = collections.namedtuple("Word", ["at", "old", "change"])
Message = collections.namedtuple("Message", ["does", "port"])
POST, TAKE, SKIP = "post", "take", "skip"



class Alone(interleaving.Following):
    """An agent that is followed alone. Its ledger is that of all, of which the words are as it says itself."""

    def __init__(self, plan, ledger, clock, said):
        super().__init__(plan, ledger, clock, said, {})
        self.events, self.waits = [], False

    def has_message(self, job):
        """Whether the job began with a message, by what the engine said."""
        return not self.next().startswith("skipped ")

    def moving(self):
        yield from self.late()
        job = self.next_job()
        if job is not None and "on" in job:
            port = (job["on"][0], self.name)
            while self.has_message(job) and not self.ledger.ports[port]:
                self.waits = True  # until another agent, which is followed after this one, has posted it
                yield interleaving.BORDER
            self.waits = False
            self.events.append(Message(TAKE if self.has_message(job) else SKIP, port))
        yield from interleaving.Stepping.moving(self)

    def post(self, receiver, value):
        super().post(receiver, value)
        self.events.append(Message(POST, (self.name, receiver)))

    def access(self, word, operands):
        _, index = self.place(operands["b"], operands["i"])
        at, old, number = (self.block(operands["b"]), index), None, self.as_word(operands.get("n"))
        if "x" in operands:
            said = self.next()
            old = int(said.split()[-1]) if said.startswith("# gave ") and said.split()[-1].isdigit() else -1
            self.variables[operands["x"]] = ("number", old)
        change = (word, number) if word in rules.WRITES else None
        self.events.append(Word(at, old, change))


def events(plan, answer):
    """The events of each agent, which was followed alone; raises a Contradiction where that alone contradicts."""
    ledger, clock = rules.Ledger(), following.Clock()
    agents = [Alone(agent, ledger, clock, said) for agent, said in zip(plan["agents"], answer, strict=True)]
    clock.following = []
    for agent in agents:
        agent.begin()
    going, rounds = agents, 0  # in how many rounds all have waited
    while going:
        for agent in going:
            agent.step()
        going = [agent for agent in going if not agent.ended]
        rounds = rounds + 1 if all(agent.waits for agent in going) else 0
        if going and rounds == 2:
            going[0].fail(following.Broken.ANSWERED, "(no message)", going[0].next(), following.ANSWERED_IN["on"])
    for agent in agents:
        if agent.ahead:
            agent.fail(agent.unlooked_for(), "(nothing)", agent.next(), following.ANSWERED_IN["say"])
    return [agent.events for agent in agents]


class Search:
    """A search through the moments between events: how far each agent is, and what the words are."""

    def __init__(self, lists):
        self.lists, self.seen = lists, set()

    def found(self):
        """Whether an order was found; None where it was given up."""
        ahead = [(tuple(0 for _ in self.lists), ())]
        while ahead:
            if len(self.seen) > MOST_TRIED:
                return None
            places, words = self.settled(*ahead.pop())
            if all(at == len(events) for at, events in zip(places, self.lists)):
                return True
            if (places, words) not in self.seen:
                self.seen.add((places, words))
                ahead += self.after(places, dict(words))
        return False

    def settled(self, places, words):
        """The moment after all that may be done at once without a loss: a word that is only read, and has what was read;
        a message that is there and taken; and a post to a port of which no later job misses a message."""
        known, places, moved = dict(words), list(places), True
        while moved:
            moved = False
            for agent, events in enumerate(self.lists):
                while places[agent] < len(events) and self.is_free(events[places[agent]], places, known):
                    places[agent] += 1
                    moved = True
        return tuple(places), words

    def is_free(self, event, places, words):
        if isinstance(event, Word):
            return event.change is None and event.old in (None, words.get(event.at, 0))
        if event.does == POST:
            return not any(Message(SKIP, event.port) in events[at:] for at, events in zip(places, self.lists))
        return event.does == TAKE and self.waiting(event.port, places) > 0

    def waiting(self, port, places):
        """How many messages wait in a port."""
        done = [event for at, events in zip(places, self.lists) for event in events[:at]]
        return done.count(Message(POST, port)) - done.count(Message(TAKE, port))

    def after(self, places, words):
        """The moments after one more event of an agent that may be next."""
        for agent, events in enumerate(self.lists):
            if places[agent] < len(events) and self.may_come(events[places[agent]], places, words):
                further = tuple(at + (other == agent) for other, at in enumerate(places))
                yield further, tuple(sorted(self.written(events[places[agent]], words).items()))

    def may_come(self, event, places, words):
        if isinstance(event, Word):
            return event.old in (None, words.get(event.at, 0))
        if event.does == POST:
            return True
        return (self.waiting(event.port, places) > 0) == (event.does == TAKE)

    def written(self, event, words):
        if not isinstance(event, Word) or event.change is None:
            return words
        word, number = event.change
        return {**words, event.at: rules.WRITES[word](words.get(event.at, 0), number) % 2**32}


def explain(plan, answer):
    """Whether some order of the agents' events explains an engine's lines; None where that is not decided; and what each
    agent alone contradicts, if anything. The plan was read by the rules."""
    try:
        lists = events(plan, answer)
    except following.Contradiction as found:
        return False, found
    return Search(lists).found(), None
