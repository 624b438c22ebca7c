"""Which accesses to words race in a run by rules.py, by turns or by any list of turns. What an agent knows of is kept as it
is defined, message by message: of the accesses that it made, and of those of which the sender of a message that it took
knew when it posted the message. Two accesses of one word by two agents, of which one writes, race where neither agent
knew of the other's.

What a run says of its accesses too: of which reads the report says what they gave, and which are compared.
"""

import collections
import dataclasses

import players
import rules
import trace_forms

LONGEST = 100000  # the turns of a run that does not end


@dataclasses.dataclass(frozen=True, eq=False)
class Access:
    """An access: its mark, which is its agent and how many that agent made before it; which event of its agent it is; its
    word, which is told by the agent that opened the block, by how many blocks that had opened then, and by the index;
    its command, and where that stands; and the marks of those of which its agent knew."""

    mark: tuple
    event: int
    word: tuple
    command: list
    place: str
    knew: frozenset

    def writes(self):
        return self.command[0] in rules.WRITES

    def told(self):
        """Its line where it races."""
        return f"{self.mark[0]}, {self.place}: {trace_forms.command_in_words(self.command)}"


def conflict(one, other):
    return one.word == other.word and one.mark[0] != other.mark[0] and (one.writes() or other.writes())


def race(one, other):
    return conflict(one, other) and one.mark not in other.knew and other.mark not in one.knew


def races(accesses):
    """All pairs that race, of accesses in the order of a run: first the one that came first."""
    of_word = collections.defaultdict(list)
    for access in accesses:
        of_word[access.word].append(access)
    for group in of_word.values():
        for at, later in enumerate(group):
            yield from ((earlier, later) for earlier in group[:at] if race(earlier, later))


def shares(accesses):
    """Whether two agents use a word, and one of them writes it."""
    return any(conflict(one, other) for one in accesses if one.writes() for other in accesses)


class Known:
    """Of which accesses each agent knows; and of each message in a port, the oldest first, those of which its sender knew
    when it posted the message."""

    def __init__(self):
        self.knows = collections.defaultdict(frozenset)
        self.carried = collections.defaultdict(collections.deque)

    def made(self, agent, mark):
        self.knows[agent] |= {mark}

    def posted(self, sender, receiver):
        self.carried[sender, receiver].append(self.knows[sender])

    def taken(self, sender, receiver):
        self.knows[receiver] |= self.carried[sender, receiver].popleft()


class Ledger(rules.Ledger):
    """A ledger that keeps all accesses in order, and knows who knows of them."""

    def __init__(self):
        super().__init__()
        self.known, self.accesses = Known(), []
        self.made = collections.Counter()  # how many accesses each agent made
        self.openers = []  # of each block the agent that opened it, and how many it had opened then

    def post(self, sender, receiver, message):
        super().post(sender, receiver, message)
        self.known.posted(sender, receiver)

    def take(self, sender, receiver):
        self.known.taken(sender, receiver)
        return super().take(sender, receiver)

    def keep(self, agent, event, word, command, place):
        """Keeps an access that an agent makes."""
        access = Access((agent, self.made[agent]), event, word, command, place, self.known.knows[agent])
        self.made[agent] += 1
        self.known.made(agent, access.mark)
        self.accesses.append(access)
        return access


class Read(int):
    """A word that an access gave; it has the access's mark wherever it is kept and posted."""

    def __new__(cls, word, mark):
        read = super().__new__(cls, word)
        read.mark = mark
        return read


class Marking(rules.Agent):
    """An agent whose accesses its ledger keeps."""

    event = 0  # how many events it had
    where = ""  # where the command stands that it does

    def open_buffer(self, words):
        buffer = super().open_buffer(words)
        self.ledger.openers.append((self.name, self.opened))
        return buffer

    def word_at(self, name, index):
        """The word at an index of the buffer in a variable; where it is refused there is none."""
        _, at = self.place(name, index)
        return (*self.ledger.openers[self.block(name)], at)

    def access(self, word, operands):
        at = self.word_at(operands["b"], operands["i"])
        super().access(word, operands)
        command = [word, *(operands[use] for use in rules.USES[word])]
        access = self.ledger.keep(self.name, self.event, at, command, self.where)
        if "x" in operands:
            self.variables[operands["x"]] = ("number", Read(self.value(operands["x"])[1], access.mark))


class Player(Marking, players.Player):
    """An agent that goes on by one event at a time and has its whole report."""

    def __init__(self, plan, ledger):
        super().__init__(plan, ledger)
        self.lines = [f"agent {self.name}"]
        self.said, self.compared = set(), set()  # the marks of the reads that the report says, and that are compared
        self.part = ""

    def close(self):
        self.end()

    def go_on(self):
        super().go_on()
        self.event += 1

    def skip(self):
        super().skip()
        self.event += 1

    def job_events(self, job):
        self.part = f"job {self.done}"
        yield from super().job_events(job)

    def take_cell(self, registry):
        self.part = f"callback for registration {self.next_cell(registry)}"
        line = super().take_cell(registry)
        self.shows(self.said, "held")
        return line

    def command_events(self, commands):
        for number, command in enumerate(commands, 1):
            self.where = f"{self.part}, command {number}"
            yield from super().command_events([command])

    def do(self, word, args):
        if word == "say":
            self.shows(self.said, args[0])
        elif word == "same":
            self.shows(self.compared, *args[1:])
        return super().do(word, args)

    def shows(self, marks, *names):
        """Puts in the marks of the reads in these variables."""
        values = [self.value(name)[-1] for name in names]
        marks.update(value.mark for value in values if isinstance(value, Read))


class Cluster(players.Cluster):
    """A plan's agents, which run to their ends by moves or by any list of turns."""

    def __init__(self, plan):
        self.ledger = Ledger()
        self.players = [Player(agent, self.ledger) for agent in plan["agents"]]
        self.names = {player.name: player for player in self.players}

    def accesses(self):
        return self.ledger.accesses

    def said(self):
        return set().union(*(player.said for player in self.players))

    def compared(self):
        return set().union(*(player.compared for player in self.players))

    def going(self):
        return [player for player in self.players if not player.ended]

    def play(self, chosen):
        """Takes turns to the end: each time of the one that is chosen of those that have not ended."""
        for _ in range(LONGEST):
            going = self.going()
            if not going:
                self.ledger.drain()
                return self
            self.step(chosen(going))
        raise AssertionError("a run does not end")

    def play_but(self, held):
        """Takes turns of all in a circle, but of those whose next event is held back, until none of them moves."""
        quiet = 0
        while quiet < 2:  # who was told to wait may be asked again and skip
            moves = [self.step(player) for player in self.going() if not held(player)]
            quiet = 0 if "Moved" in moves else quiet + 1
        return self

    def report(self):
        """The report of a run that has ended."""
        lines = [line for player in self.players for line in player.lines]
        return "\n".join([*lines, *self.ledger.lines()]) + "\n"

    def outline(self):
        """What each agent did, without the words that it read: the same in all lists of turns."""
        marked = sorted((access.mark, access.event, access.word, access.place) for access in self.accesses())
        return marked, [player.event for player in self.players]


def by_turns(plan):
    """The run by turns, which has ended."""
    cluster = Cluster(plan)
    cluster.run_turns()
    return cluster


def at_random(rng):
    """Chooses players in stretches, some of them oftener than others."""
    left, weights = 0, {}

    def chosen(going):
        nonlocal left, weights
        if left == 0:
            left = rng.choice([1, 3, 10, 40])
            weights = {player.name: rng.choice([0, 1, 1, 4, 20]) for player in going}
        left -= 1
        given = [weights.get(player.name, 1) for player in going]
        return rng.choices(going, given if any(given) else None)[0]

    return chosen


def text_of(pair):
    """What `check --races` writes of two accesses that race, or where none does."""
    return "".join(f"{line}\n" for line in ["race", *(access.told() for access in pair)]) if pair else "no race\n"
