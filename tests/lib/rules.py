"""The rules once more, independently of the program: what a plan's text is refused with, and what its run reports.

Used by random_plans.py and by engines/, among others. It knows the commands of all three versions.
"""

import collections
import itertools
import json
import os
import re

TOP = os.path.dirname(os.path.dirname(os.path.dirname(os.path.abspath(__file__))))
NAME = re.compile(r"[A-Za-z_][A-Za-z0-9_]{0,31}\Z")
LARGEST = 9007199254740991

# the commands of the language, and what the tests have to know of each: tests/README.md, "The table of commands"
with open(os.path.join(TOP, "tests", "rows", "commands.json")) as table:
    COMMANDS = json.load(table)
# what the operands of each are for: x is assigned, k a property's key, l a literal, t a text, z a number of words, i an
# index, n a number, p a number that is put, q how many are woken, and the others are read: v as any value, o as an object, h
# as what can be held weakly, w as a WeakRef, m as a WeakMap, s as a WeakSet, r as a FinalizationRegistry, b as a shared
# buffer; c names a callback, a another agent, and d is the word of a command, which its operands follow
USES = {word: row["operands"] for word, row in COMMANDS.items()}
# an operand that may stand after these
ONE_MORE_USE = {word: row["and"] for word, row in COMMANDS.items() if "and" in row}
READ = "vohwmsrb"
# of what kind the operand for a use is: n a name, l a literal, t a text, c the name of a callback, a that of another
# agent, i a number and from version 3 on a number or the name of a variable, w a number of words, d a command's word
KINDS = dict.fromkeys("xk" + READ, "n") | dict.fromkeys("inpq", "i") | {use: use for use in "ltcad"} | {"z": "w"}
OPERANDS = {word: "".join(KINDS[use] for use in uses) for word, uses in USES.items()}
ONE_MORE = {word: KINDS[use] for word, use in ONE_MORE_USE.items()}
ASSIGNING = {word for word, uses in USES.items() if "x" in uses}
# the commands on a word of a block, and what each writes, over the word and for the number, modulo 2^32; `compareexchange`
# writes another number, and not always
ON_WORDS = [word for word, uses in USES.items() if "i" in uses]
WRITES = {
    "store": lambda old, number: number, "add": lambda old, number: old + number, "sub": lambda old, number: old - number,
    "and": lambda old, number: old & number, "or": lambda old, number: old | number,
    "xor": lambda old, number: old ^ number, "exchange": lambda old, number: number,
}
VERSIONS = [1, 2, 3]
# what version 1 has not, and what version 2 has not
SINCE_TWO = [word for word, row in COMMANDS.items() if row.get("since") == 2]
SINCE_THREE = [word for word, row in COMMANDS.items() if row.get("since") == 3]
# what no callback may have
COLLECTING = ["collect", "collectlater"]
# the most agents that a plan has, and so the most that a `notify` wakes
MOST_AGENTS = 8
# a text that is a whole number, or none and so 0; of others it would take fractions and rounding to say what they are
NUMERAL = re.compile(r" *([+-]?[0-9]{1,15})? *\Z")
# stands in the place of a line of the report where an agent falls asleep
ASLEEP = ""


class Refused(Exception):
    """The plan is refused: the code's number, then agent, callback or job, and command."""

    def __init__(self, code, agent=None, part=None, command=0):
        words = [f"refused S{code}"]
        if agent is not None:
            words.append(f"agent {agent}")
        if part is not None:
            words.append(f"{part[0]} {part[1]}")
        if command:
            words.append(f"command {command}")
        super().__init__(" ".join(words))


class Number:
    """A JSON number as it is written, within the range of a double: 1.0 is no whole number, and neither is -0."""

    def __init__(self, text):
        if float(text) in (float("inf"), float("-inf")):
            raise ValueError
        self.text = text

    def whole(self):
        if re.fullmatch(r"-?\d+", self.text) and self.text != "-0":
            value = int(self.text)
            if -(2**63) <= value < 2**63:
                return value
        return None


def is_text(text):
    data = text.encode("utf-8", "surrogatepass")
    return len(data) <= 256 and all(0x20 <= b <= 0x7E and b not in b'"\\' for b in data)


def read_json(data):
    try:
        text = data.decode("utf-8")
        if text.startswith("\ufeff"):
            raise ValueError
        value = json.loads(text, parse_int=Number, parse_float=Number, parse_constant=reject, strict=True)
        check_texts(value, 127)
        return value
    except (ValueError, RecursionError):
        raise Refused(1) from None


def reject(_):
    raise ValueError


def check_texts(value, levels):
    """No half of a surrogate pair stands alone, and arrays and objects nest no deeper than so many levels."""
    if isinstance(value, str):
        value.encode("utf-8")
    elif isinstance(value, (list, dict)):
        if levels == 0:
            raise ValueError
        inner = value if isinstance(value, list) else [*value.keys(), *value.values()]
        for part in inner:
            check_texts(part, levels - 1)


def has_keys(value, *keys):
    return isinstance(value, dict) and set(value) == set(keys)


def is_run(value):
    return isinstance(value, list) and all(isinstance(c, list) and c and isinstance(c[0], str) for c in value)


def is_on(value):
    return isinstance(value, list) and len(value) == 2 and all(isinstance(name, str) for name in value)


def is_job(value):
    if has_keys(value, "on", "run"):
        return is_on(value["on"]) and is_run(value["run"])
    return has_keys(value, "run") and is_run(value["run"])


def is_agent(value):
    return (
        has_keys(value, "name", "callbacks", "jobs")
        and isinstance(value["name"], str)
        and isinstance(value["callbacks"], dict)
        and all(is_run(run) for run in value["callbacks"].values())
        and isinstance(value["jobs"], list)
        and all(is_job(job) for job in value["jobs"])
    )


def is_plan(value):
    return (
        has_keys(value, "version", "agents")
        and isinstance(value["version"], Number)
        and isinstance(value["agents"], list)
        and all(is_agent(agent) for agent in value["agents"])
    )


def has_kind(kind, operand, numbers):
    """Whether an operand is of the right JSON kind: a text, a number, what may stand for a number, or anything but an array
    and an object."""
    if kind == "l":
        return not isinstance(operand, (list, dict))
    return isinstance(operand, {"i": numbers, "w": Number}.get(kind, str))


def kinds_of(command):
    """The kinds of so many operands as the command should have."""
    kinds = OPERANDS[command[0]]
    return kinds + ONE_MORE.get(command[0], "") if len(command) - 1 > len(kinds) else kinds


def has_form(command, known):
    """Whether the word is known, and the operands are as many as it should have, and of the right JSON kinds. What `try` does
    is a command in its turn, but no other `try`."""
    word, operands = command[0], command[1:]
    if word not in known["words"]:
        return False
    if word == "try":
        is_begun = len(operands) >= 2 and all(isinstance(operand, str) for operand in operands[:2])
        return is_begun and operands[1] != "try" and has_form(operands[1:], known)
    kinds = kinds_of(command)
    return len(kinds) == len(operands) and all(
        has_kind(kind, operand, known["numbers"]) for kind, operand in zip(kinds, operands)
    )


def bared(command):
    """A command, without the `try` and the variable that it may stand behind."""
    return command[2:] if command[:1] == ["try"] else command


def check_operand(kind, operand, known, place):
    if (kind in "nca" or (kind == "i" and isinstance(operand, str))) and not NAME.match(operand):
        raise Refused(5, *place)
    if kind in known and operand not in known[kind]:
        raise Refused(6, *place)
    if kind in "lt" and isinstance(operand, str) and not is_text(operand):
        raise Refused(8, *place)
    if isinstance(operand, Number) and (operand.whole() is None or abs(operand.whole()) > LARGEST):
        raise Refused(8, *place)
    if kind == "w" and not 0 <= operand.whole() <= 16384:
        raise Refused(10, *place)


def check_command(command, known, where, number):
    if not has_form(command, known):
        raise Refused(7, *where, number)
    done = bared(command)
    if done[0] in COLLECTING and where[1][0] == "callback":
        raise Refused(9, *where, number)
    kinds = kinds_of(done) if done is command else OPERANDS["try"] + kinds_of(done)
    for kind, operand in zip(kinds, command[1:]):
        check_operand(kind, operand, known, (*where, number))


def check_run(run, known, where):
    if len(run) > 10000:
        raise Refused(10, *where)
    for number, command in enumerate(run, 1):
        check_command(command, known, where, number)


def check_on(on, known, where):
    if not NAME.match(on[0]):
        raise Refused(5, *where)
    if on[0] not in known["a"]:
        raise Refused(6, *where)
    if not NAME.match(on[1]):
        raise Refused(5, *where)


def read_plan(data):
    plan = read_json(data)
    if not is_plan(plan):
        raise Refused(2)
    version = plan["version"].whole()
    if version not in VERSIONS:
        raise Refused(3)
    words = [word for word, row in COMMANDS.items() if row.get("since", 1) <= version]
    numbers = Number if version < 3 else (Number, str)
    agents = plan["agents"]
    if not 1 <= len(agents) <= MOST_AGENTS:
        raise Refused(4)
    names = set()
    for number, agent in enumerate(agents):
        if not NAME.match(agent["name"]) or agent["name"] in names:
            raise Refused(5, number)
        names.add(agent["name"])
    for number, agent in enumerate(agents):
        if len(agent["callbacks"]) > 1000 or len(agent["jobs"]) > 1000:
            raise Refused(10, number)
        known = {"words": words, "numbers": numbers, "c": agent["callbacks"], "a": names - {agent["name"]}}
        for k, name in enumerate(sorted(agent["callbacks"], key=str.encode), 1):
            if not NAME.match(name):
                raise Refused(5, number, ("callback", k))
            check_run(agent["callbacks"][name], known, (number, ("callback", k)))
        for j, job in enumerate(agent["jobs"], 1):
            if "on" in job:
                check_on(job["on"], known, (number, ("job", j)))
            check_run(job["run"], known, (number, ("job", j)))
    return plan


class TypeRefused(Exception):
    """An agent refuses a command."""


class Cell:
    """A registration that was neither unregistered nor taken."""

    def __init__(self, registry, target, held, token):
        self.registry, self.target, self.held, self.token = registry, target, held, token


class Graph:
    """An agent's graph at one moment, with its roots. Where a collection is open, what a deref gave since is a root too."""

    def __init__(self, agent):
        self.roots = agent.roots()
        self.properties = {number: [*held.values()] for number, held in agent.properties.items()}
        self.entries = {number: [*entries.items()] for number, entries in agent.entries.items()}
        self.there = set(range(1, agent.made + 1)) - agent.gone

    def reached(self):
        """The numbers of what is reached."""
        return reached_from(self.roots, self.properties, self.entries)

    def unreached(self):
        """The numbers of what was there and not emptied, and is not reached."""
        return self.there - self.reached()


class Sleep:
    """A `wait` of an agent at a word: the variable that gets its answer, and the answer, which is None until the agent is
    taken out of the list."""

    def __init__(self, at, variable):
        self.at, self.variable, self.answer = at, variable, None


class Ledger:
    """What the agents share: the words of each block, who sleeps at each word, how many tickets each block has, in agents
    and in messages, and the messages that were posted and neither taken nor drained. A message is a value, or a block."""

    def __init__(self):
        self.words, self.tickets, self.released = [], [], 0
        self.sleepers = collections.defaultdict(list)  # by block and index, who fell asleep first before the others
        self.ports = collections.defaultdict(collections.deque)  # by sender and receiver, the oldest message first
        self.posted, self.taken, self.drained = 0, 0, 0

    def open(self, words):
        """A new block of so many words, with one ticket."""
        self.words.append([0] * words)
        self.tickets.append(1)
        return len(self.words) - 1

    def spend(self, block):
        """Spends a ticket of the block, which with the last one is released."""
        self.tickets[block] -= 1
        if self.tickets[block] == 0:
            self.words[block] = None
            self.released += 1

    def sleep(self, block, index, variable):
        """A new sleep, which is the last at its word."""
        sleep = Sleep((block, index), variable)
        self.sleepers[sleep.at].append(sleep)
        return sleep

    def notify(self, block, index, count):
        """Takes the first at a word, and at most so many. How many were taken."""
        sleepers = self.sleepers[block, index]
        taken, sleepers[:] = sleepers[:count], sleepers[count:]
        for sleep in taken:
            sleep.answer = "ok"
        return len(taken)

    def time_out(self, sleep):
        self.sleepers[sleep.at].remove(sleep)
        sleep.answer = "timed-out"

    def post(self, sender, receiver, message):
        """A block's message has a ticket of its own."""
        if message[0] == "block":
            self.tickets[message[1]] += 1
        self.posted += 1
        self.ports[sender, receiver].append(message)

    def take(self, sender, receiver):
        """The oldest message, with the ticket that it may have."""
        self.taken += 1
        return self.ports[sender, receiver].popleft()

    def drain(self):
        """Takes out what nobody took. In which order it is done, no report shows."""
        for port in self.ports.values():
            while port:
                message = port.popleft()
                self.drained += 1
                if message[0] == "block":
                    self.spend(message[1])

    def lines(self):
        yield "cluster"
        yield f"blocks {len(self.words)} released {self.released}"
        yield f"messages posted {self.posted} taken {self.taken} drained {self.drained}"


class Agent:
    """One agent: variables, objects with their properties, WeakRefs with their targets, WeakMaps with their entries,
    WeakSets with their members, FinalizationRegistries with their callbacks, the registrations, shared buffers with
    their blocks, what the running job keeps alive, and the numbers of all that was emptied; and what it reported."""

    def __init__(self, plan, ledger):
        self.name, self.ledger, self.jobs, self.done, self.ended = plan["name"], ledger, plan["jobs"], 0, False
        self.lines = [f"agent {self.name}"]
        self.callbacks = plan["callbacks"]  # their commands, by name
        self.variables, self.made, self.properties, self.targets = {}, 0, {}, {}
        self.buffers = {}  # their blocks, by their numbers, of those that are not emptied: each has a ticket
        self.opened, self.posted = 0, 0
        self.entries, self.members = {}, {}  # by the number of the WeakMap or WeakSet
        self.registries = {}  # the names of their callbacks, by their numbers
        self.cells = {}  # by the numbers of the registrations, which rise
        self.registered, self.unregistered, self.taken = 0, 0, 0
        self.queue = []  # the FinalizationRegistries of which cleanup jobs are due
        self.kept, self.gone = [], set()
        self.open = None  # the graph of the later collection that is not finished
        self.sleep = None  # where it sleeps in a job, or was taken and has not gone on
        self.under_way = None  # the lines of the move that was begun last

    def value(self, name):
        return self.variables.get(name, ("undefined",))

    def needs_room(self):
        if self.made >= 1000000:
            raise TypeRefused("limit: values")

    def identity(self):
        self.needs_room()
        self.made += 1
        return self.made

    def new_object(self):
        number = self.identity()
        self.properties[number] = {}
        return ("object", number)

    def object(self, name):
        value = self.value(name)
        if value[0] != "object":
            raise TypeRefused("TypeError: not an object")
        return self.properties[value[1]]

    def new_weakref(self, target):
        held_weakly(target)
        weakref = self.new_object()
        self.targets[weakref[1]] = target
        self.kept.append(target)
        return weakref

    def target(self, weakref):
        if weakref[0] != "object" or weakref[1] not in self.targets:
            raise TypeRefused("TypeError: not a WeakRef")
        target = self.targets[weakref[1]]
        if target[1] in self.gone:
            return ("undefined",)
        self.kept.append(target)
        if self.open:
            self.open.roots.append(target)
        return target

    def new_weakmap(self):
        weakmap = self.new_object()
        self.entries[weakmap[1]] = {}
        return weakmap

    def weakmap(self, name):
        """The entries of the WeakMap in a variable, by key."""
        value = self.value(name)
        if value[0] != "object" or value[1] not in self.entries:
            raise TypeRefused("TypeError: not a WeakMap")
        return self.entries[value[1]]

    def new_weakset(self):
        weakset = self.new_object()
        self.members[weakset[1]] = set()
        return weakset

    def weakset(self, name):
        """The members of the WeakSet in a variable."""
        value = self.value(name)
        if value[0] != "object" or value[1] not in self.members:
            raise TypeRefused("TypeError: not a WeakSet")
        return self.members[value[1]]

    def new_registry(self, callback):
        registry = self.new_object()
        self.registries[registry[1]] = callback
        return registry

    def registry(self, name):
        """The number of the FinalizationRegistry in a variable."""
        value = self.value(name)
        if value[0] != "object" or value[1] not in self.registries:
            raise TypeRefused("TypeError: not a FinalizationRegistry")
        return value[1]

    def register(self, registry, target, held, token):
        held_weakly(target)
        if target == held:
            raise TypeRefused("TypeError: target and held value are the same")
        if token != ("undefined",):
            held_weakly(token)
        self.registered += 1
        self.cells[self.registered] = Cell(registry, target, held, token)

    def unregister(self, registry, token):
        """Whether there was a registration with this token, which now is none any more."""
        held_weakly(token)
        found = [number for number, cell in self.cells.items() if cell.registry == registry and cell.token == token]
        for number in found:
            del self.cells[number]
        self.unregistered += len(found)
        return bool(found)

    def open_buffer(self, words):
        """A new buffer over a new block."""
        self.needs_room()
        if self.opened >= 256:
            raise TypeRefused("limit: blocks")
        self.opened += 1
        return self.buffer_over(self.ledger.open(words))

    def buffer_over(self, block):
        """A new buffer, which has a ticket of the block from now on."""
        buffer = self.new_object()
        self.buffers[buffer[1]] = block
        return buffer

    def block(self, name):
        """The block of the shared buffer in a variable."""
        value = self.value(name)
        if value[0] != "object" or value[1] not in self.buffers:
            raise TypeRefused("TypeError: not a SharedArrayBuffer")
        return self.buffers[value[1]]

    def words(self, name):
        return self.ledger.words[self.block(name)]

    def access(self, word, operands):
        """A command on a word of a block: the word that was there is given, and one is written, by what it is for."""
        words, index = self.place(operands["b"], operands["i"])
        old, number, put = words[index], self.as_word(operands.get("n")), self.as_word(operands.get("p"))
        if "x" in operands:
            self.variables[operands["x"]] = ("number", old)
        if word in WRITES:
            words[index] = WRITES[word](old, number) % 2**32
        elif word == "compareexchange" and old == number:
            words[index] = put

    def place(self, name, index):
        """The words of the shared buffer in a variable, and the index of one of them."""
        words, at = self.words(name), self.as_number(index)
        if not 0 <= at < len(words):
            raise TypeRefused("RangeError: index")
        return words, at

    def as_word(self, operand):
        """What stands for a word, modulo 2^32; None where nothing does."""
        return None if operand is None else self.as_number(operand) % 2**32

    def as_number(self, operand):
        """The whole number that an operand is, or that the value of a variable becomes (ToIntegerOrInfinity)."""
        if isinstance(operand, Number):
            return operand.whole()
        kind, *value = self.value(operand)
        if kind == "undefined":
            return 0
        if kind in ("boolean", "number"):
            return int(value[0])
        if kind != "text":
            raise TypeRefused("TypeError: cannot be converted to a number")
        numeral = NUMERAL.match(value[0])
        if not numeral:
            raise TypeRefused("limit: texts")
        return int(numeral[1] or 0)

    def wait(self, operands):
        """Falls asleep where a word is what is expected, in the same step as it reads it."""
        words, index = self.place(operands["b"], operands["i"])
        if words[index] == self.as_word(operands["n"]):
            self.sleep = self.ledger.sleep(self.block(operands["b"]), index, operands["x"])
        else:
            self.variables[operands["x"]] = ("text", "not-equal")

    def wake(self):
        """Goes on after a sleep."""
        self.variables[self.sleep.variable] = ("text", self.sleep.answer)
        self.sleep = None

    def notify(self, operands):
        _, index = self.place(operands["b"], operands["i"])
        woken = self.ledger.notify(self.block(operands["b"]), index, self.most_woken(operands.get("q")))
        self.variables[operands["x"]] = ("number", woken)

    def most_woken(self, operand):
        """How many a `notify` wakes at most: all, where it does not say it, or where a variable is undefined."""
        if operand is None or (isinstance(operand, str) and self.value(operand) == ("undefined",)):
            return MOST_AGENTS
        return min(max(self.as_number(operand), 0), MOST_AGENTS)

    def tried(self, name, command):
        """Does a command; where it is refused, a variable gets the refusal's text."""
        try:
            return self.do(command[0], command[1:])
        except TypeRefused as refused:
            self.variables[name] = ("text", str(refused))
            return None

    def post(self, receiver, value):
        message = value
        if value[0] == "object" and value[1] in self.buffers:
            message = ("block", self.buffers[value[1]])
        elif value[0] in ("object", "symbol"):
            raise TypeRefused("DataCloneError: value cannot be posted")
        if self.posted >= 10000:
            raise TypeRefused("limit: posts")
        self.posted += 1
        self.ledger.post(self.name, receiver, message)

    def receive(self, sender, name):
        """Takes a message, whose value the variable gets. A block becomes a new buffer, and its ticket that of the
        buffer; where there is no room for one the ticket is spent."""
        message = self.ledger.take(sender, self.name)
        if message[0] == "block":
            try:
                message = self.buffer_over(message[1])
            except TypeRefused:
                self.ledger.spend(message[1])
                raise
        self.variables[name] = message

    def awaiting(self, registry):
        """The numbers of the registrations with an emptied target, the oldest first."""
        cells = self.cells.items()
        return [number for number, cell in cells if cell.registry == registry and cell.target[1] in self.gone]

    def roots(self):
        """What variables hold, what is kept alive, FinalizationRegistries and the held values of registrations."""
        registries = [("object", number) for number in self.registries]
        return [*self.variables.values(), *self.kept, *registries, *(cell.held for cell in self.cells.values())]

    def reached(self):
        """The numbers of what is reached now."""
        return Graph(self).reached()

    def collect(self):
        """Empties at once all that the roots do not lead to. How many these are."""
        self.none_is_open()
        return self.empty(Graph(self).unreached())

    def collect_later(self):
        self.none_is_open()
        self.open = Graph(self)

    def none_is_open(self):
        if self.open:
            raise TypeRefused("a collection is open")

    def finish(self):
        """The line of a later collection, where one is open at a job's end."""
        if self.open:
            dead, self.open = self.open.unreached(), None
            yield f"emptied {self.empty(dead)}"

    def empty(self, dead):
        """Empties these, and all that refers to them. How many these are."""
        self.gone |= dead
        for tables in (self.entries, self.members):
            for number in dead & set(tables):
                del tables[number]
        for number in sorted(dead & set(self.buffers)):
            self.ledger.spend(self.buffers.pop(number))
        for entries in self.entries.values():
            for key in [key for key in entries if key[1] in dead]:
                del entries[key]
        for members in self.members.values():
            members.difference_update([member for member in members if member[1] in dead])
        touched = {cell.registry for cell in self.cells.values() if cell.target[1] in dead}
        self.queue += sorted(touched - set(self.queue))
        return len(dead)

    def run(self, commands):
        """The lines of commands, up to the first that is refused. Where the agent falls asleep it is to be asked for more
        when it can go on."""
        for command in commands:
            line = self.do(command[0], command[1:])
            if self.sleep:
                yield ASLEEP
                self.wake()
            if line is not None:
                yield line

    def job(self, job):
        """The lines of a job. It ends with its first refusal, and keeps nothing alive from then on. One that waited
        takes its message first, and ends before its first command where there is no room for what came. A later
        collection that it began is finished at its end."""
        try:
            if "on" in job:
                self.receive(*job["on"])
            yield from self.run(job["run"])
        except TypeRefused as refused:
            yield f"error {refused}"
        yield from self.job_end()

    def job_end(self):
        yield from self.finish()
        self.kept = []

    def cleanup_jobs(self):
        """The lines of the cleanup jobs that are due after a job."""
        while self.queue:
            registry = self.next_registry()
            self.queue.remove(registry)
            yield from self.cleanup_job(registry)

    def cleanup_job(self, registry):
        """The lines of a cleanup job. It ends with the first refusal of a callback as well."""
        try:
            while self.awaiting(registry):
                yield self.take_cell(registry)
                yield from self.run(self.callbacks[self.registries[registry]])
        except TypeRefused as refused:
            yield f"error {refused}"
            if self.awaiting(registry):
                self.queue.append(registry)
        self.kept = []

    def take_cell(self, registry):
        """Takes the registration whose callback comes next; gives its line."""
        number = self.next_cell(registry)
        held = self.cells.pop(number).held
        self.taken += 1
        self.variables["held"] = held
        return f"cleanup {number} held {printed(held)}"

    def next_registry(self):
        """The one of the queue whose cleanup job is next."""
        return self.queue[0]

    def next_cell(self, registry):
        """The number of the registration that the cleanup job takes next; there is one with an emptied target."""
        return self.awaiting(registry)[0]

    def next_job(self):
        """The job that comes next, if any."""
        return self.jobs[self.done] if self.done < len(self.jobs) else None

    def has_message(self, job):
        """Whether a message is there for a job that waits."""
        return bool(self.ledger.ports[job["on"][0], self.name])

    def move(self):
        """Runs the next job with its cleanup jobs, or skips it where it waits and no message is there, or ends. After a sleep
        it runs the rest of these; where nobody took it, it times out."""
        if self.sleep:
            if not self.sleep.answer:
                self.ledger.time_out(self.sleep)
            self.go_on_awake()
            return
        job = self.next_job()
        if job is None:
            self.end()
            return
        self.done += 1
        if "on" in job and not self.has_message(job):
            self.lines.append(f"skipped {self.done}")
        else:
            self.under_way = itertools.chain(self.job(job), self.cleanup_jobs())
            self.go_on_awake()

    def go_on_awake(self):
        """Runs what is under way, up to its end or to where the agent falls asleep."""
        self.lines += itertools.takewhile(lambda line: line != ASLEEP, self.under_way)

    def end(self):
        """Spends the tickets of all buffers, and counts what became of the registrations."""
        for block in self.buffers.values():
            self.ledger.spend(block)
        self.buffers, self.ended = {}, True
        awaiting = sum(cell.target[1] in self.gone for cell in self.cells.values())
        live = len(self.cells) - awaiting
        self.lines.append(f"end live {live} awaiting {awaiting} unregistered {self.unregistered} taken {self.taken}")

    def do(self, word, args):
        """Does a command; gives the line that it reports, if any."""
        if word == "let":
            self.variables[args[0]] = literal(args[1])
        elif word == "new":
            self.variables[args[0]] = self.new_object()
        elif word == "symbol":
            self.variables[args[0]] = ("symbol", self.identity())
        elif word == "symbolfor":
            self.variables[args[0]] = ("registered", args[1])
        elif word == "copy":
            self.variables[args[0]] = self.value(args[1])
        elif word == "same":
            self.variables[args[0]] = ("boolean", self.value(args[1]) == self.value(args[2]))
        elif word == "say":
            return "say " + printed(self.value(args[0]))
        elif word == "set":
            self.object(args[0])[args[1]] = self.value(args[2])
        elif word == "get":
            self.variables[args[0]] = self.object(args[1]).get(args[2], ("undefined",))
        elif word == "delete":
            self.object(args[1]).pop(args[2], None)
            self.variables[args[0]] = ("boolean", True)
        elif word == "keys":
            return " ".join(["keys", *self.object(args[0])])
        elif word == "weakref":
            self.variables[args[0]] = self.new_weakref(self.value(args[1]))
        elif word == "deref":
            self.variables[args[0]] = self.target(self.value(args[1]))
        elif word == "weakmap":
            self.variables[args[0]] = self.new_weakmap()
        elif word == "wmset":
            entries = self.weakmap(args[0])
            entries[held_weakly(self.value(args[1]))] = self.value(args[2])
        elif word == "wmget":
            self.variables[args[0]] = self.weakmap(args[1]).get(self.value(args[2]), ("undefined",))
        elif word == "wmhas":
            self.variables[args[0]] = ("boolean", self.value(args[2]) in self.weakmap(args[1]))
        elif word == "wmdelete":
            self.variables[args[0]] = ("boolean", self.weakmap(args[1]).pop(self.value(args[2]), None) is not None)
        elif word == "weakset":
            self.variables[args[0]] = self.new_weakset()
        elif word == "wsadd":
            members = self.weakset(args[0])
            members.add(held_weakly(self.value(args[1])))
        elif word == "wshas":
            self.variables[args[0]] = ("boolean", self.value(args[2]) in self.weakset(args[1]))
        elif word == "wsdelete":
            members, member = self.weakset(args[1]), self.value(args[2])
            self.variables[args[0]] = ("boolean", member in members)
            members.discard(member)
        elif word == "registry":
            self.variables[args[0]] = self.new_registry(args[1])
        elif word == "register":
            token = self.value(args[3]) if len(args) == 4 else ("undefined",)
            self.register(self.registry(args[0]), self.value(args[1]), self.value(args[2]), token)
        elif word == "unregister":
            removed = self.unregister(self.registry(args[1]), self.value(args[2]))
            self.variables[args[0]] = ("boolean", removed)
        elif word == "buffer":
            self.variables[args[0]] = self.open_buffer(args[1].whole())
        elif word == "length":
            self.variables[args[0]] = ("number", len(self.words(args[1])))
        elif word == "sameblock":
            self.variables[args[0]] = ("boolean", self.block(args[1]) == self.block(args[2]))
        elif word == "wait":
            self.wait(dict(zip(USES[word], args)))
        elif word == "notify":
            self.notify(dict(zip(USES[word] + ONE_MORE_USE[word], args)))
        elif word in ON_WORDS:
            self.access(word, dict(zip(USES[word], args)))
        elif word == "try":
            return self.tried(args[0], args[1:])
        elif word == "post":
            self.post(args[0], self.value(args[1]))
        elif word == "collect":
            return f"emptied {self.collect()}"
        elif word == "collectlater":
            self.collect_later()
        return None


def reached_from(roots, properties, entries):
    """The numbers of all that roots lead to, over values of properties and entries of WeakMaps, by the numbers of what
    has them. A WeakRef does not lead to its target, a WeakMap not to its keys, a WeakSet not to its members, a
    registration neither to its target nor to its token; an entry's value is reached where its WeakMap and its key both
    are."""
    ahead, reached = [*roots], set()
    while ahead:
        while ahead:
            value = ahead.pop()
            if value[0] in ("object", "symbol") and value[1] not in reached:
                reached.add(value[1])
                ahead += properties.get(value[1], [])
        for number in reached & set(entries):
            for key, value in entries[number]:
                if key[1] in reached and value[0] in ("object", "symbol") and value[1] not in reached:
                    ahead.append(value)
    return reached


def held_weakly(value):
    """The value itself, where it can be held weakly: an object, or a symbol outside the registry."""
    if value[0] not in ("object", "symbol"):
        raise TypeRefused("TypeError: cannot be held weakly")
    return value


def literal(value):
    if value is None:
        return ("undefined",)
    if isinstance(value, bool):
        return ("boolean", value)
    if isinstance(value, Number):
        return ("number", value.whole())
    return ("text", value)


def printed(value):
    kind = value[0]
    if kind == "undefined":
        return "undefined"
    if kind == "boolean":
        return "true" if value[1] else "false"
    if kind == "number":
        return str(value[1])
    if kind == "text":
        return f'"{value[1]}"'
    if kind == "registered":
        return f'symbolfor "{value[1]}"'
    return f"{kind} {value[1]}"


def stays(agent, agents):
    """Whether an agent sleeps and nobody took it, or its next job waits for an agent that has not ended, of which no message
    is there."""
    if agent.sleep:
        return not agent.sleep.answer
    job = agent.next_job()
    return job is not None and "on" in job and not agent.has_message(job) and not agents[job["on"][0]].ended


def run_turns(agents):
    """Runs agents, by name in their order, to their ends. Each time the first moves that can, of those that have not
    ended: one that stays can't. Where all of them stay, the first skips its job, or its sleep times out."""
    while going := [agent for agent in agents.values() if not agent.ended]:
        next((agent for agent in going if not stays(agent, agents)), going[0]).move()


def report(plan):
    ledger = Ledger()
    agents = {agent["name"]: Agent(agent, ledger) for agent in plan["agents"]}
    run_turns(agents)
    ledger.drain()
    lines = [line for agent in agents.values() for line in agent.lines]
    return "\n".join([*lines, *ledger.lines()]) + "\n"


def answer(data):
    """The status, what is written, and the line on standard error."""
    try:
        return 0, report(read_plan(data)), ""
    except Refused as refused:
        return 1, "", f"{refused}\n"
