"""What an engine said of a plan beside the program's report: each line with what it is."""

import collections

import following
from verdicts import Kind

Line = collections.namedtuple("Line", ["agent", "kind", "wanted", "said"])


class Verdict:
    """What the comparison of one plan came to: its lines, the contradiction if there is one, and what is counted over a
    whole run. That are collections of the engine's own; derefs that could give nothing, and that did; callbacks that the
    program called, and that the engine did."""

    def __init__(self, lines, contradiction, clock, due, came):
        self.lines, self.contradiction, self.own_collections = lines, contradiction, clock.own_collections
        self.counted = collections.Counter(line.kind for line in lines)
        self.chances, self.emptied, self.due, self.came = clock.chances, clock.emptied, due, came

    def counts(self):
        return self.counted.copy()

    def forget(self):
        """Keeps the counts alone."""
        self.lines = []


def compare(plan, answer, symbols=True, is_vague=False):
    """The verdict on an engine's lines of each agent. The plan is one that was read by the rules. Of an engine that is
    vague nothing is concluded from canaries."""
    usual = following.usually(plan)
    followed, clock, contradiction = following.follow(plan, answer, usual, symbols, is_vague)
    lines = []
    for name, agent in usual.items():
        lines += compare_agent(name, agent, followed[name], clock, contradiction)
    if contradiction:
        lines.append(Line(contradiction.agent, Kind.CONTRADICTION, contradiction.wanted, contradiction.said))
    due = sum(agent.taken for agent in usual.values())
    return Verdict(lines, contradiction, clock, due, sum(len(agent.cleaned_up) for agent in followed.values()))


def compare_agent(name, usual, agent, clock, contradiction):
    """The lines of one agent, in the program's order. Those after a contradiction are left out."""
    moved = out_of_order(usual.cleaned(), agent.cleaned())
    tags = sorted({**usual.told, **agent.told}, key=lambda tag: usual.times.get(tag, agent.times.get(tag)))
    for tag in tags:
        wanted, said = usual.told.get(tag), agent.told.get(tag)
        if said is None and contradiction and tag[0] not in agent.ends:
            continue
        yield Line(name, kind_of(tag, wanted, said, moved, agent, clock), wanted, said)
    yield Line(name, Kind.NOT_OBSERVED, usual.lines[-1], None)


def kind_of(tag, wanted, said, moved, agent, clock):
    if wanted is not None and wanted.startswith("emptied "):
        return Kind.NOT_OBSERVED
    if wanted == said:
        return Kind.ORDER if tag[:2] in moved and said.startswith("cleanup ") else Kind.SAME
    if said is None and agent.awaits(tag[1]):
        return Kind.UNCALLED
    at = agent.times.get(tag, agent.ends.get(tag[0], clock.now))
    return cause(clock.deviations, at, tag[1])


def cause(deviations, at, number):
    """The kind of the deviation that a line comes of: the last of its registration, or the last before it."""
    own = [deviation for deviation in deviations if number and deviation.number == number and deviation.at <= at]
    before = own or [deviation for deviation in deviations if deviation.at <= at]
    return before[-1].kind if before else Kind.CONTRADICTION


def out_of_order(usual, said):
    """The job and the registration of each callback that came at another place among those that both have."""
    moved = set()
    for job, numbers in said.items():
        wanted = [number for number in usual.get(job, []) if number in numbers]
        both = [number for number in numbers if number in wanted]
        moved.update((job, number) for number, other in zip(both, wanted) if number != other)
    return moved
