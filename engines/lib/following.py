"""A plan by the rules, each choice that the standard leaves open being the one that an engine took.

What an engine said of a plan are the lines of each agent, and among them notes, which begin with `#`: what commands gave,
where jobs and callbacks end, and what canaries show: `# collected`, that a collection came that was not asked for, and
`# not complete`, that one that was asked for left what nothing held. The rules are followed along these lines.
A deref that gave nothing, and a callback, show that a value was emptied: it must have been one that nothing reaches. Where
it was reached at each collection that was asked for, another one must have come, and canaries show it. What was emptied
must never be seen again. All else must be as the rules have it.
"""

import contextlib

import rules
from verdicts import ANSWERED_IN, Broken, Kind

EMPTIED = "# deref undefined"
# The words of which the engine tells at once what they gave; a deref tells it too, in a note of its own.
GIVING = {word for word, row in rules.COMMANDS.items() if row.get("tells")}


class Contradiction(Exception):
    """What no execution that the standard allows can show: the rule, its section, and what was wanted and said."""

    def __init__(self, broken, agent, wanted, said, section=None):
        super().__init__(broken.value[0])
        self.broken, self.agent, self.wanted, self.said = broken, agent, wanted, said
        self.section = section or broken.value[1]


class Deviation:
    """A choice of an engine's that is not the program's, and when it was taken: after so many lines of all agents."""

    def __init__(self, kind, at, number=None):
        self.kind, self.at, self.number = kind, at, number


class Clock:
    """How many lines of all agents were followed, the deviations so far, and what is known of collections."""

    def __init__(self):
        self.now, self.deviations = 0, []
        self.own_collections = 0  # how often canaries showed a collection that was not asked for
        self.asked = 0  # collections that were asked for
        self.is_vague = False  # whether the engine collected otherwise than it was asked to
        self.chances, self.emptied = 0, 0  # derefs of what a complete collection would have emptied, and that gave nothing

    def deviates(self, kind, number=None):
        self.deviations.append(Deviation(kind, self.now, number))


class Tagged(rules.Agent):
    """An agent whose lines each have a tag: the job, the registration in whose callback it stands or 0, the number of
    the line there, and the time by the clock."""

    def __init__(self, plan, ledger, clock):
        super().__init__(plan, ledger)
        self.clock, self.told, self.times = clock, {}, {}
        self.inside, self.count = 0, 0
        self.ends = {}  # when each job and the callbacks after it had ended

    def tag(self, line):
        if line.startswith("cleanup "):
            self.inside, self.count = int(line.split()[1]), 0
        self.clock.now += 1
        self.told[self.done, self.inside, self.count] = line
        self.times[self.done, self.inside, self.count] = self.clock.now
        self.count += 1

    def job(self, job):
        self.inside, self.count = 0, 0
        yield from self.tagged(super().job(job))

    def tagged(self, lines):
        for line in lines:
            if line != rules.ASLEEP:
                self.check(line)
                self.tag(line)
            yield line

    def check(self, line):
        """Looks at a line before it is told."""

    def cleanup_jobs(self):
        yield from self.tagged(super().cleanup_jobs())
        self.ends[self.done] = self.clock.now

    def move(self):
        job = self.next_job()
        if not self.sleep and job is not None and "on" in job and not self.has_message(job):
            self.done, self.inside, self.count = self.done + 1, 0, 0
            self.lines += self.tagged([f"skipped {self.done}"])
            self.ends[self.done] = self.clock.now
        else:
            super().move()

    def cleaned(self):
        """The registrations of which callbacks were called, by the jobs after which they were, in their order."""
        found = {}
        for (job, inside, count), line in sorted(self.told.items(), key=lambda told: self.times[told[0]]):
            if inside and count == 0 and line.startswith("cleanup "):
                found.setdefault(job, []).append(inside)
        return found


class Following(Tagged):
    """An agent that follows what an engine said. The program's order of callbacks is `usual`."""

    def __init__(self, plan, ledger, clock, said, usual):
        super().__init__(plan, ledger, clock)
        self.ahead, self.usual = said[::-1], usual
        self.due = set()  # what a complete collection would have emptied, and no deref gave since
        self.only_kept = set()  # what only KeptAlive had at the last collection that was asked for
        self.doubtful = []  # what was emptied, though each collection that was asked for had to leave it
        self.cleaned_up = set()
        self.answered_by = {}  # the word of the command that assigned each variable last
        self.word = "on"

    def fail(self, broken, wanted, said, section=None):
        raise Contradiction(broken, self.name, wanted, said, section)

    def next(self):
        return self.ahead[-1] if self.ahead else "(nothing)"

    def note(self, note):
        """Takes the note that must come next."""
        if self.next() != f"# {note}":
            self.fail(self.unlooked_for(), f"# {note}", self.next(), self.section_of(self.next()))
        self.ahead.pop()

    def take(self, note):
        """Takes a note that may come next; says whether it came."""
        if self.next() != f"# {note}":
            return False
        self.ahead.pop()
        return True

    def unlooked_for(self):
        return Broken.CLEANED_INSIDE if self.next().startswith("cleanup ") else Broken.ANSWERED

    def section_of(self, line):
        """The section that settles what a line says."""
        if line.startswith("cleanup "):
            return None
        return ANSWERED_IN[self.word]

    def check(self, line):
        """Compares a line of the rules with the engine's next one; `emptied` lines no engine has."""
        if line.startswith("emptied "):
            return
        if self.next() != line:
            other = line.startswith("cleanup ") and self.next().split(" held ")[0] == line.split(" held ")[0]
            self.fail(Broken.HELD_OTHER if other else self.unlooked_for(), line, self.next(), self.section_of(self.next()))
        self.ahead.pop()

    def do(self, word, args):
        self.word = word
        line = super().do(word, args)
        if word in GIVING and not self.sleep:
            self.note(f"gave {rules.printed(self.value(args[0]))}")
        if word in rules.ASSIGNING:
            self.answered_by[args[0]] = word
        if word == "copy":
            self.answered_by[args[0]] = self.answered_by.get(args[1], word)
        if word == "say":
            self.word = self.answered_by.get(args[0], word)
        return line

    def wake(self):
        variable = self.sleep.variable
        super().wake()
        self.note(f"gave {rules.printed(self.value(variable))}")

    def move(self):
        if not self.sleep:
            self.late()
        super().move()

    def late(self):
        """Callbacks that came after all waiting, before the next job began. Who sleeps in one is alone on its engine."""
        while self.next().startswith("cleanup "):
            for line in self.called():
                if line == rules.ASLEEP:
                    self.ledger.time_out(self.sleep)
                else:
                    self.lines.append(line)

    def job(self, job):
        self.word = "on"
        self.note("job")
        yield from super().job(job)
        self.note("ended")

    def cleanup_jobs(self):
        while self.next().startswith("cleanup "):
            yield from self.called()
        for number, cell in self.cells.items():
            if cell.target[1] in self.due:
                seen = cell.target[1] in self.gone
                self.clock.deviates(Kind.UNCALLED if seen else Kind.RETAINED, number)
        self.look_at_canaries()
        self.ends[self.done] = self.clock.now

    def look_at_canaries(self):
        """Where no canary shows a collection besides those that were asked for, none came."""
        if self.take("collected"):
            self.clock.own_collections += 1
            self.clock.is_vague = True
        if self.doubtful and self.clock.asked and not self.clock.is_vague:
            number, said, live, kept = self.doubtful[0]
            self.fail(kept if number in self.only_kept else live, "(not emptied)", said)
        self.doubtful = []

    def called(self):
        """The lines of one callback that the engine called."""
        said = self.next()
        number = int(said.split()[1])
        if number == 0:
            self.fail(Broken.HELD_OTHER, "(no callback)", said)
        self.check_call(number, said)
        self.word = "held"
        yield from self.tagged([self.take_cell(number)])
        self.answered_by["held"] = "held"
        yield from self.tagged(self.called_back())
        self.note(f"cleaned {number}")
        self.kept = []

    def called_back(self):
        """The lines of the callback of the registration that was taken last."""
        try:
            yield from self.run(self.callback)
        except rules.TypeRefused as refused:
            yield f"error {refused}"

    def check_call(self, number, said):
        """Whether the callback may be called now; empties the target."""
        if number not in self.cells:
            unknown = number > self.registered
            broken = Broken.CLEANED_UNKNOWN if unknown else Broken.CLEANED_UNREGISTERED
            self.fail(Broken.CLEANED_TWICE if number in self.cleaned_up else broken, "(no callback)", said)
        target = self.cells[number].target
        if target[1] not in self.gone:
            self.check_dead(target[1], said, Broken.CLEANED_LIVE, Broken.CLEANED_KEPT)
        first = next((other for other in self.usual.get(self.done, []) if other in self.cells), number)
        if number != first:
            self.clock.deviates(Kind.ORDER, number)

    def check_dead(self, number, said, live, kept):
        """A value that the engine emptied must be one that nothing reaches."""
        if number in self.reached():
            was_kept, self.kept = self.kept, []
            self.fail(live if number in self.reached() or not was_kept else kept, "(not emptied)", said)
        if number not in self.due:
            self.clock.deviates(Kind.EARLIER, number)
            self.doubtful.append((number, said, live, kept))
        self.gone.add(number)

    def awaits(self, number):
        """Whether a registration's callback could have come, and did not."""
        return number in self.cells and self.cells[number].target[1] in self.due

    def take_cell(self, number):
        cell = self.cells.pop(number)
        self.callback = self.callbacks[self.registries[cell.registry]]
        self.cleaned_up.add(number)
        self.taken += 1
        self.variables["held"] = cell.held
        return f"cleanup {number} held {rules.printed(cell.held)}"

    def target(self, weakref):
        if weakref[0] != "object" or weakref[1] not in self.targets:
            return super().target(weakref)
        said, target = self.next(), self.targets[weakref[1]]
        if not said.startswith("# deref "):
            self.word = "deref"
            self.fail(self.unlooked_for(), f"# deref {rules.printed(target)}", said, self.section_of(said))
        self.ahead.pop()
        return self.emptied(target, said) if said == EMPTIED else self.given(target, said)

    def given(self, target, said):
        if target[1] in self.gone:
            self.fail(Broken.GIVEN_AGAIN, EMPTIED, said)
        if said != f"# deref {rules.printed(target)}":
            self.fail(Broken.ANSWERED, f"# deref {rules.printed(target)}", said, ANSWERED_IN["deref"])
        self.kept.append(target)
        reached = self.reached()
        if reached & self.gone:
            self.fail(Broken.REACHED_EMPTIED, EMPTIED, said)
        if target[1] in self.due:
            self.clock.chances += 1
            self.clock.deviates(Kind.RETAINED)
            self.due -= reached
        return target

    def emptied(self, target, said):
        if target[1] not in self.gone:
            self.clock.chances += 1
            self.clock.emptied += 1
            self.check_dead(target[1], said, Broken.EMPTIED_LIVE, Broken.EMPTIED_KEPT)
        return ("undefined",)

    def unreached(self):
        return set(range(1, self.made + 1)) - self.reached()

    def collect(self):
        """A collection may empty anything that is not reached, and need not."""
        self.look_at_canaries()
        self.clock.is_vague |= self.take("not complete")
        self.clock.asked += 1
        self.due |= self.unreached()
        kept, self.kept = self.kept, []
        self.only_kept = self.unreached() - self.due
        self.kept = kept
        return 0


@contextlib.contextmanager
def edition(symbols, clock):
    """The rules of editions before the 14th, where symbols can't be held weakly."""
    held_weakly = rules.held_weakly

    def older(value):
        if value[0] == "symbol":
            clock.deviates(Kind.EDITION)
            raise rules.TypeRefused("TypeError: cannot be held weakly")
        return held_weakly(value)

    rules.held_weakly = held_weakly if symbols else older
    try:
        yield
    finally:
        rules.held_weakly = held_weakly


def usually(plan):
    """The agents of a plan after its run by the rules, by their names."""
    ledger, clock = rules.Ledger(), Clock()
    agents = {agent["name"]: Tagged(agent, ledger, clock) for agent in plan["agents"]}
    rules.run_turns(agents)
    return agents


def follow(plan, answer, usual, symbols=True, is_vague=False):
    """The agents after their run along an engine's lines, by their names, the clock, and the contradiction, if any."""
    ledger, clock, agents = rules.Ledger(), Clock(), {}
    for agent, said in zip(plan["agents"], answer, strict=True):
        order = usual[agent["name"]].cleaned()
        agents[agent["name"]] = Following(agent, ledger, clock, said, order)
    clock.is_vague = is_vague or len(agents) > 1  # a collection that one agent asks for may be one of all
    with edition(symbols, clock):
        try:
            rules.run_turns(agents)
            for agent in agents.values():
                agent.late()
                if agent.ahead:
                    agent.fail(agent.unlooked_for(), "(nothing)", agent.next(), ANSWERED_IN["say"])
        except Contradiction as contradiction:
            return agents, clock, contradiction
    return agents, clock, None
