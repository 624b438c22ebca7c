"""Whether a plan that has a race has two reports, and if not, why. What an agent does next no word decides, so the agents do
the same in all lists of turns, but for the words that they read. Which orders of the accesses to a word there are, is
found by holding one access back at a time: what no turn leads to then comes after it, in all lists of turns. All these
orders are gone through.
"""

import collections

import racing
import rules

MOST = 200000  # states of the accesses that are looked at

# why a word that is raced for shows nothing
FIXED = "no message orders it, and skips do"
UNSAID = "what is read is not said"
SAME = "each order leaves the same words, and what is said finds the same"
HIDDEN = "what is said finds the same, though orders leave other words before"
COMPARED = "what is read is only compared, with one answer"


class TooMany(Exception):
    """There are more states than are looked at."""


def left_by(access, word):
    """The word that an access leaves where it finds this one."""
    operands = dict(zip(rules.USES[access.command[0]], access.command[1:]))
    write = rules.WRITES.get(access.command[0])
    return word if write is None else write(word, operands["n"].whole()) % 2**32


def is_next(player, access):
    return (player.name, player.event) == (access.mark[0], access.event)


def held_back(plan, access):
    """The marks of the accesses that are made where this one never is."""
    cluster = racing.Cluster(plan).play_but(lambda player: is_next(player, access))
    return {made.mark for made in cluster.accesses()}


def earlier_of(plan, group):
    """Of each access in a group those that come before it in all lists of turns, as bits."""
    earlier = [0] * len(group)
    for at, held in enumerate(group):
        made = held_back(plan, held)
        for other, access in enumerate(group):
            if other != at and access.mark not in made:
                earlier[other] |= 1 << at
    return earlier


def in_order(plan, order):
    """The run by turns in which these accesses come in this order and all others as early as may be, which has ended; or
    nothing, where there is none."""
    cluster = racing.Cluster(plan)
    ahead = collections.deque(order)

    def held(player):
        while ahead and cluster.names[ahead[0].mark[0]].event > ahead[0].event:
            ahead.popleft()
        return any(is_next(player, access) for access in list(ahead)[1:])

    cluster.play_but(held)
    if cluster.going():
        return None
    cluster.ledger.drain()
    return cluster


class Orders:
    """All orders of a group of accesses, which are all accesses to some words. A state is which of them were made, as
    bits, what is in the words, and what those that are watched have found."""

    def __init__(self, plan, group, watched=()):
        self.group, self.watched = group, watched
        self.earlier = earlier_of(plan, group)
        first = (0, (0,) * len({access.word for access in group}), (None,) * len(watched))
        self.places = {word: place for place, word in enumerate(dict.fromkeys(access.word for access in group))}
        self.came_from = {first: None}
        # for each access the words that it may find, each with a state in which it does
        self.found = [{} for _ in group]
        self.all = (1 << len(group)) - 1
        self.go_through(first)

    def go_through(self, first):
        ahead = [first]
        while ahead:
            state = ahead.pop()
            for at, after in self.steps(state):
                self.found[at].setdefault(state[1][self.places[self.group[at].word]], state)
                if after not in self.came_from:
                    self.came_from[after] = state, at
                    ahead.append(after)
            if len(self.came_from) > MOST:
                raise TooMany

    def steps(self, state):
        """Each access that may come next, by its number, and the state after it."""
        made, words, seen = state
        for at, access in enumerate(self.group):
            if made >> at & 1 or self.earlier[at] & ~made:
                continue
            place = self.places[access.word]
            left = (*words[:place], left_by(access, words[place]), *words[place + 1 :])
            finds = tuple(words[place] if mark == access.mark else was for mark, was in zip(self.watched, seen))
            yield at, (made | 1 << at, left, finds)

    def is_fixed(self, one, other):
        """Whether these two of the group have one order."""
        one, other = self.group.index(one), self.group.index(other)
        return bool((self.earlier[one] >> other | self.earlier[other] >> one) & 1)

    def leave_the_same(self):
        """Whether, whatever order some of them were made in, the words are the same."""
        return len({made for made, _, _ in self.came_from}) == len({state[:2] for state in self.came_from})

    def two_found(self, marks):
        """Two states in which an access with one of these marks finds two words, and the access; or nothing."""
        for access, found in zip(self.group, self.found):
            if access.mark in marks and len(found) > 1:
                return [*found.values()][:2], access
        return None

    def order_by(self, state, then=()):
        """All accesses in an order that leads to a state, and then begins with these."""
        order = []
        while self.came_from[state]:
            state, at = self.came_from[state]
            order.append(at)
        order = order[::-1] + [self.group.index(access) for access in then]
        while len(order) < len(self.group):
            made = sum(1 << at for at in order)
            order.append(next(at for at, earlier in enumerate(self.earlier) if not made >> at & 1 and not earlier & ~made))
        return [self.group[at] for at in order]

    def ends(self):
        """The states at the end, one for each list of what the watched ones found."""
        return {state[2]: state for state in self.came_from if state[0] == self.all}.values()


class Raced:
    """A plan with races, by its run by turns."""

    def __init__(self, plan, run):
        self.plan, self.run, self.report = plan, run, run.report()
        self.pairs = [*racing.races(run.accesses())]
        self.said, self.compared = run.said(), run.compared()
        self.words = [*dict.fromkeys(earlier.word for earlier, _ in self.pairs)]

    def group(self, words):
        return [access for access in self.run.accesses() if access.word in words]

    def differs(self, order):
        """Whether the run with this order of accesses has another report."""
        run = in_order(self.plan, order)
        return run is not None and run.report() != self.report

    def directed(self, most):
        """Whether turns that let the later one of two racing accesses come first lead to another report."""
        return any(self.differs([later, earlier]) for earlier, later in self.pairs[:most])

    def at_random(self, rng, most):
        runs = (racing.Cluster(self.plan).play(racing.at_random(rng)) for _ in range(most))
        return any(run.report() != self.report for run in runs)

    def kind_of(self, word):
        """Why a word that is raced for shows nothing; nothing where it does."""
        orders = Orders(self.plan, self.group([word]))
        pairs = [pair for pair in self.pairs if pair[0].word == word]
        if all(orders.is_fixed(*pair) for pair in pairs):
            return FIXED
        marks = {access.mark for access in orders.group}
        if not marks & (self.said | self.compared):
            return UNSAID
        if orders.two_found(self.said):
            return None
        if orders.two_found(self.compared):
            return COMPARED
        return SAME if orders.leave_the_same() else HIDDEN

    def worked_out(self, word):
        """Whether two orders in which a read that is said finds two words lead to two reports."""
        orders = Orders(self.plan, self.group([word]))
        states, access = orders.two_found(self.said)
        runs = [in_order(self.plan, orders.order_by(state, [access])) for state in states]
        return None not in runs and runs[0].report() != runs[1].report()

    def is_compared_alike(self, words):
        """Whether all orders of accesses to these words have one report, where what is read of them is only compared."""
        group = self.group(words)
        watched = [access.mark for access in group if access.mark in self.compared]
        orders = Orders(self.plan, group, watched)
        return not any(self.differs(orders.order_by(state)) for state in orders.ends())

    def kinds(self):
        """By all orders: of each word that is raced for why it shows nothing; or nothing, where two reports were found."""
        kinds = {word: self.kind_of(word) for word in self.words}
        shown = [word for word, kind in kinds.items() if kind is None]
        if shown:
            assert self.worked_out(shown[0]), "two orders in which a read that is said finds two words have one report"
            return None
        compared = [word for word, kind in kinds.items() if kind == COMPARED]
        return kinds if not compared or self.is_compared_alike(compared) else None
