"""The heap of an agent after a collection, what keeps each of its values, and whether a list of reasons is right.

What keeps a value is a step: ("variable", NAME), ("keptalive",), ("registry",), ("registration", N), ("property", OBJECT, KEY)
or ("entry", WEAKMAP, KEY), with the numbers of values. Each value that is reached has a shortest way of such steps from the
roots; where several are equally short, any of them will do.
"""

KINDS = {
    "targets": "WeakRef", "entries": "WeakMap", "members": "WeakSet", "registries": "FinalizationRegistry",
    "buffers": "SharedArrayBuffer", "properties": "object",
}


def number(value):
    """The number of an object or a symbol; None of other values."""
    return value[1] if value[0] in ("object", "symbol") else None


def sources(step):
    """The values that a step comes from."""
    return {"property": step[1:2], "entry": step[1:]}.get(step[0], ())


def kind_of(agent, one):
    """Of what kind a value is: that of the first table that has it."""
    return next((KINDS[table] for table in KINDS if one in getattr(agent, table)), "symbol")


class Heap:
    """What an agent of rules.py has now, after a collection that emptied `dead`."""

    def __init__(self, agent):
        self.agent, self.emptied = agent.name, agent.dead
        self.there = [one for one in range(1, agent.made + 1) if one not in agent.gone]
        self.kinds = {one: kind_of(agent, one) for one in self.there}
        self.variables = {name: number(value) for name, value in agent.variables.items() if number(value)}
        self.kept = [number(value) for value in agent.kept]
        self.registries = [*agent.registries]
        self.blocks = {one: ticket + 1 for one, ticket in agent.buffers.items()}
        self.properties = {one: {key: number(value) for key, value in held.items() if number(value)}
                           for one, held in agent.properties.items() if one not in agent.gone}
        self.entries = {one: {key[1]: number(value) for key, value in entries.items()}
                        for one, entries in agent.entries.items() if one not in agent.gone}
        self.targets = {one: target[1] for one, target in agent.targets.items()
                        if one not in agent.gone and target[1] not in agent.gone}
        self.members = {one: sorted(member[1] for member in members)
                        for one, members in agent.members.items() if one not in agent.gone}
        self.held = {name: (cell.registry, number(cell.held)) for name, cell in agent.cells.items() if number(cell.held)}
        self.live = {name: (cell.registry, cell.target[1]) for name, cell in agent.cells.items()
                     if cell.target[1] not in agent.gone}
        self.tokens = {name: (cell.registry, cell.token[1]) for name, cell in agent.cells.items()
                       if number(cell.token) and cell.token[1] not in agent.gone}
        self.steps = self.all_steps()
        self.depths = self.all_depths()
        assert self.depths.keys() == agent.reached(), "the steps do not lead to what is reached"

    def led(self):
        """Each step, with the value that it leads to."""
        for name, value in self.variables.items():
            yield ("variable", name), value
        for value in self.kept:
            yield ("keptalive",), value
        for value in self.registries:
            yield ("registry",), value
        for name, (_, value) in self.held.items():
            yield ("registration", name), value
        for one, held in self.properties.items():
            for key, value in held.items():
                yield ("property", one, key), value
        for one, entries in self.entries.items():
            for key, value in entries.items():
                if value:
                    yield ("entry", one, key), value

    def all_steps(self):
        """The steps that lead to each value."""
        found = {}
        for step, value in self.led():
            found.setdefault(value, []).append(step)
        return found

    def all_depths(self):
        """How many steps the shortest way to each value that is reached has; an entry comes after both its values."""
        depths, added = {}, True
        while added:
            added = [value for value, steps in self.steps.items() if value not in depths
                     and any(all(one in depths for one in sources(step)) for step in steps)]
            depths |= dict.fromkeys(added, 1 + max(depths.values(), default=0))
        return depths

    def after(self, step):
        """How many steps a way has that ends with this one, if what it comes from has the shortest ones; None where that is
        not reached."""
        found = [self.depths.get(one) for one in sources(step)]
        return None if None in found else 1 + max(found, default=0)

    def held_weakly(self):
        """What a WeakRef, an entry, a WeakSet or a registration holds weakly now."""
        keys = {key for entries in self.entries.values() for key in entries}
        members = {member for members in self.members.values() for member in members}
        registered = {one for cells in (self.live, self.tokens) for _, one in cells.values()}
        return keys | members | {*self.targets.values()} | registered

    def must_be_told(self, is_all):
        """The values that have to be told for themselves, and not only for what lies behind them."""
        return {*self.depths} if is_all else self.held_weakly() & self.depths.keys()

    def fault(self, is_all, told):
        """What is wrong with a list of values and steps that is told of this heap, or None."""
        before = set()
        for value, step in told:
            if value in before:
                return f"{value} is told twice"
            if step not in self.steps.get(value, ()):
                return f"{step} does not lead to {value}"
            if not before.issuperset(sources(step)):
                return f"{value} is told before what {step} comes from"
            if self.after(step) != self.depths[value]:
                return f"{step} is no shortest way to {value}"
            before.add(value)
        must = self.must_be_told(is_all)
        if not must <= before:
            return f"{sorted(must - before)} are left out"
        behind = {one for _, step in told for one in sources(step)}
        if not before <= must | behind:
            return f"{sorted(before - must - behind)} need not be told"
        return None

    def ways(self, is_all, choose):
        """A right list; of equally short ways it has those that are chosen."""
        chosen = {}
        for value in sorted(self.depths, key=self.depths.get):
            chosen[value] = choose([step for step in self.steps[value] if self.after(step) == self.depths[value]])
        needed = self.must_be_told(is_all)
        for value in reversed(chosen):
            if value in needed:
                needed |= {*sources(chosen[value])}
        return [(value, step) for value, step in chosen.items() if value in needed]
