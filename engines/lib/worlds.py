"""All that an engine may do with a plan of one agent: every allowed choice is tried, and what each command may give, and
after which job each callback may come, is gathered. What a command may give is kept with the choices that led there, so
that what two commands settle together can be told.

In the mode of a conforming engine a deref of what nothing reaches may give it or nothing, a callback whose target
nothing reaches may come after any job, or never, and nothing is emptied that is reached. In the mode of a complete
collector each collection empties all that is not reached, and each callback comes after the job, in any order.
"""

import collections
import copy

import rules

MOST_WORLDS = 2000
MOST_REGISTRATIONS = 8  # a callback may make registrations without end
AFTER = ("after",)  # the fact after which job a callback came, as long as it runs
MAKING = ("new", "symbol", "weakref", "weakmap", "weakset", "registry", "buffer")  # the commands that make something anew


class TooMany(Exception):
    """A plan with too many choices."""


class World(rules.Agent):
    """An agent after some choices. The registrations in `dropped` were unregistered. `facts` are the choices that a
    program can see: pairs of a fact and whether it holds. What is made is named by the variable that it is assigned to."""

    dropped, facts = frozenset(), frozenset()

    def __init__(self, plan, ledger):
        super().__init__(plan, ledger)
        self.names, self.counts = {}, collections.Counter()

    def do(self, word, args):
        before = self.made
        line = super().do(word, args)
        if self.made > before:
            self.counts[args[0]] += 1
            count = self.counts[args[0]]
            self.names[self.made] = args[0] if count == 1 else f"{args[0]} {count}"
        return line

    def note(self, fact, holds):
        """Notes a choice; where a callback takes it again, the last one counts."""
        self.forget(fact)
        self.facts |= {(fact, holds)}

    def forget(self, fact):
        self.facts = frozenset(known for known in self.facts if known[0] != fact)

    def unregister(self, registry, token):
        before = set(self.cells)
        found = super().unregister(registry, token)
        self.dropped |= before - set(self.cells)
        return found

    def copied(self):
        other = copy.copy(self)
        other.ledger = copy.deepcopy(self.ledger)
        for name in ("variables", "targets", "buffers", "registries", "cells", "names", "counts"):
            setattr(other, name, copy.copy(getattr(self, name)))
        for name in ("properties", "entries", "members"):
            setattr(other, name, {number: copy.copy(part) for number, part in getattr(self, name).items()})
        other.kept, other.gone, other.lines = [*self.kept], {*self.gone}, []
        return other

    def key(self):
        """What tells two worlds apart."""
        cells = [(number, cell.held, cell.target) for number, cell in self.cells.items()]
        parts = (self.variables, self.properties, self.entries, self.buffers, cells, self.made, self.ledger.words)
        sets = [sorted(members) for members in self.members.values()] + [sorted(self.dropped), sorted(self.facts)]
        return repr((parts, sets, sorted(self.kept), sorted(self.gone)))

    def is_sound(self):
        return not self.reached() & self.gone

    def named(self, value):
        """A value, whose name stands for its number."""
        return (value[0], self.names[value[1]]) if value[0] in ("object", "symbol") else value

    def holders(self, value, but):
        """The variables that hold an object or a symbol, but for one."""
        return {name for name, other in self.variables.items() if other == value and name != but}


class Outcome:
    """What a command may give: the choices that lead there, and the variables that hold it besides in each world."""

    def __init__(self):
        self.facts, self.holders = set(), None

    def add(self, facts, holders):
        self.facts.add(facts)
        self.holders = holders if self.holders is None else self.holders & holders


class Seen:
    """What was seen of all worlds: for each place of a command what it may give or write, and whether it may be refused
    or not; for each registration the jobs after which its callback may come, and what its held value may be."""

    def __init__(self):
        self.gave = collections.defaultdict(lambda: collections.defaultdict(Outcome))
        self.refused, self.done = collections.defaultdict(set), set()
        self.weak_symbols = set()  # the places at which a symbol is to be held weakly
        self.ours = set()  # the places at which a plan is refused what ECMAScript lets a program do
        self.comes, self.held = collections.defaultdict(set), collections.defaultdict(set)
        self.called = {}  # for each registration the name of its callback
        self.always = {}  # for each job the registrations whose callbacks have come by then in each world
        self.registered = 0  # how many registrations are made at most


def checked_variable(command):
    """The variable whose value a test can look at after a command, if any."""
    gives = rules.COMMANDS[command[0]].get("tells") or command[0] in ("deref", "say")
    return command[1] if gives else None


class Worlds:
    """The worlds of a plan's agent, as one command after the other is done in each. Where `at_once`, all jobs are done
    in one, in which no callback comes and nothing that is kept alive goes."""

    def __init__(self, plan, complete, at_once):
        self.agent, self.complete, self.at_once, self.seen = plan["agents"][0], complete, at_once, Seen()
        self.worlds = [World(self.agent, rules.Ledger())]

    def run(self):
        for number, job in enumerate(self.agent["jobs"], 1):
            self.worlds = self.commands(self.worlds, ("job", number), job["run"])
            if not self.at_once:
                self.worlds = self.distinct(map(self.cleared, self.worlds))
                self.worlds = self.cleanups(number)
            taken = [set(range(1, world.registered + 1)) - set(world.cells) - world.dropped for world in self.worlds]
            self.seen.always[number] = set.intersection(*taken)
        self.seen.registered = max(world.registered for world in self.worlds)
        return self.seen

    def cleared(self, world):
        world.kept = []
        return world

    def distinct(self, worlds):
        found = {world.key(): world for world in worlds}
        if len(found) > MOST_WORLDS or any(world.registered > MOST_REGISTRATIONS for world in found.values()):
            raise TooMany()
        return [*found.values()]

    def commands(self, worlds, where, run):
        """The worlds after these commands, those too in which one of them was refused."""
        ended = []
        for at, command in enumerate(run):
            going = []
            for world in worlds:
                for after, refused in self.after(world, command, (*where, at)):
                    (ended if refused else going).append(after)
            worlds = self.distinct(going)
        return self.distinct([*worlds, *ended])

    def after(self, world, command, place):
        """The worlds that may come of a command, each with whether it was refused."""
        for chosen in self.choices(world, command, place):
            self.look_for_weak_symbols(chosen, command, place)
            try:
                line = None if command == ["collect"] and not self.complete else chosen.do(command[0], command[1:])
            except rules.TypeRefused as refused:
                self.seen.refused[place].add(str(refused))
                self.seen.ours.update([place] if self.is_ours(chosen, command, str(refused)) else [])
                yield chosen, True
                continue
            if chosen.is_sound():
                self.seen.done.add(place)
                self.look(chosen, command, place, line)
                yield chosen, False

    def is_ours(self, world, command, refused):
        """Whether a plan is refused what ECMAScript allows: a property of a value that is no object, and not undefined."""
        if refused != "TypeError: not an object":
            return False
        return world.value(command[1 + rules.USES[command[0]].index("o")])[0] != "undefined"

    def look(self, world, command, place, line):
        """Notes what a command gave or wrote."""
        variable = checked_variable(command)
        if variable is not None:
            value = world.value(variable)
            holders = world.holders(value, variable) if value[0] in ("object", "symbol") else set()
            self.seen.gave[place][world.named(value)].add(world.facts, holders)
        elif command[0] == "keys":
            self.seen.gave[place]["keys", line.removeprefix("keys").strip()].add(world.facts, set())

    def look_for_weak_symbols(self, world, command, place):
        """Notes where a symbol is to be held weakly; what is only asked for need not be."""
        if not rules.COMMANDS[command[0]].get("tells"):
            uses = rules.USES[command[0]] + rules.ONE_MORE_USE.get(command[0], "")
            held = [world.value(name)[0] for use, name in zip(uses, command[1:]) if use == "h"]
            self.seen.weak_symbols.update([place] if "symbol" in held else [])

    def choices(self, world, command, place):
        """Copies of a world, one for each choice that a command leaves to the engine."""
        same = world.copied()
        yield same
        if self.complete or command[0] != "deref":
            return
        weakref = world.value(command[2])
        target = world.targets.get(weakref[1]) if weakref[0] == "object" else None
        if target and target[1] not in world.gone and target[1] not in world.reached():
            emptied = world.copied()
            emptied.gone.add(target[1])
            same.note(("gave", place), True)
            emptied.note(("gave", place), False)
            yield emptied

    def cleanups(self, number):
        """The worlds after the callbacks that come after a job: all that wait, in any order, or any of them."""
        ended, going = [], self.worlds
        while going:
            called = []
            for world in going:
                ready = self.ready(world)
                if not (self.complete and ready):
                    ended.append(world)
                for registration in ready:
                    called += self.called(world, registration, number)
            going = self.distinct(called)
        return self.distinct(ended)

    def ready(self, world):
        """The registrations whose callbacks may come now."""
        if self.complete:
            return [number for number, cell in world.cells.items() if cell.target[1] in world.gone]
        reached = world.reached()
        return [number for number, cell in world.cells.items() if cell.target[1] not in reached]

    def called(self, world, registration, number):
        world = world.copied()
        cell = world.cells.pop(registration)
        name = world.registries[cell.registry]
        world.gone.add(cell.target[1])
        world.note(("came", registration), True)
        world.note(AFTER, number)
        self.seen.comes[registration].add(number)
        self.seen.held[registration].add(world.named(cell.held))
        self.seen.called[registration] = name
        world.variables["held"] = cell.held
        after = self.commands([world], ("callback", name), self.agent["callbacks"][name])
        return [self.called_back(ended) for ended in after if ended.is_sound()]

    def called_back(self, world):
        world.forget(AFTER)
        return self.cleared(world)


def explore(plan, complete, at_once=False):
    """What may be seen of a plan of one agent, which was read by the rules."""
    return Worlds(plan, complete, at_once).run()
