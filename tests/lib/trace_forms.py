"""What `clusterrun trace` writes of the turns of trace_model.py, in its three forms, as lines, and gaps between them for what
keeps values: a list of lines is right there, and not only one. A gap is a pair of a name of an agent and a heap.

Each form has `parts(turns, names)`; `kept(name, value, step)` and `is_kept(line)`, and `step_of(line)` of such a line.
"""

import json
import re

import rules

EVENT_WIDTH = 32
LEDGER = "-"


def as_json(value):
    """A value of an event as its line has it."""
    if isinstance(value, tuple):
        return value_as_json(value)
    if isinstance(value, list):
        return [as_json(item) for item in value]
    if isinstance(value, dict):
        return {name: as_json(member) for name, member in value.items()}
    return value.whole() if isinstance(value, rules.Number) else value


def value_as_json(value):
    kind = value[0]
    if kind == "undefined":
        return None
    if kind == "block":
        return {"block": value[1] + 1, "ticket": value[1].serial}
    names = {"registered": "symbolfor", "object": "object", "symbol": "symbol"}
    return {names[kind]: value[1]} if kind in names else value[1]


class Lines:
    """A line of JSON for each event."""

    words = ["--json"]
    STEPS = {
        "variable": ("variable",), "keptalive": ("keptalive",), "registry": ("registry",), "registration": ("registration",),
        "property": ("object", "property"), "entry": ("weakmap", "key"),
    }

    def line(self, event):
        return json.dumps(as_json(event), separators=(",", ":"))

    def parts(self, turns, names):
        for turn in turns:
            if turn.event:
                yield self.line(turn.event)
            if turn.heap:
                yield turn.heap
            for event in turn.ledger_events:
                yield self.line(event)
            for block in turn.released:
                yield self.line({"ledger": "released", "block": block})

    def kept(self, name, value, step):
        by = dict(zip(self.STEPS[step[0]], step[1:] or (True,)))
        return self.line({"agent": name, "event": "kept", "identity": value, "by": by})

    def is_kept(self, line):
        return '"event":"kept"' in line

    def step_of(self, line):
        told = json.loads(line)
        by = told["by"]
        kind = next(kind for kind, members in self.STEPS.items() if members == (*by,))
        return told["identity"], (kind, *(part for part in by.values() if part is not True))


class Rows:
    """Rows in columns."""

    words = []
    STEPS = {
        "variable": "kept by variable {}", "keptalive": "kept by KeptAlive", "registry": "kept as a FinalizationRegistry",
        "registration": "kept by registration {}", "property": "kept by property {1} of {0}",
        "entry": "kept by the entry of {0} under {1}",
    }
    READ = re.compile(r" {2}(\d+) +kept (?:by variable (\w+)|by (KeptAlive)|as a (FinalizationRegistry)|by registration (\d+)"
                      r"|by property (\w+) of (\d+)|by the entry of (\d+) under (\d+))\Z")

    def parts(self, turns, names):
        self.width = max(map(len, names))
        for turn in turns:
            if turn.event:
                yield from self.of_agent(turn.event)
            if turn.heap:
                yield turn.heap
            for event in turn.ledger_events:
                yield self.row(LEDGER, *of_ledger(event))
            for block in turn.released:
                yield self.row(LEDGER, f"block {block} released")

    def row(self, name, event, answer=None):
        column = f"{name:{self.width}}  {event}"
        return column if answer is None else f"{column:{self.width + 2 + EVENT_WIDTH}}  {answer}"

    def of_agent(self, event):
        yield self.row(event["agent"], *told_of_agent(event))
        if event["event"] == "emptied":
            for value in event["identities"]:
                yield self.row(event["agent"], f"  {value}", "emptied")

    def kept(self, name, value, step):
        return self.row(name, f"  {value}", self.STEPS[step[0]].format(*step[1:]))

    def is_kept(self, line):
        return self.READ.search(line[self.width + 2:]) is not None

    def step_of(self, line):
        value, variable, alive, registry, registration, key, one, weakmap, under = self.READ.search(line).groups()
        if variable:
            step = "variable", variable
        elif alive or registry:
            step = ("keptalive" if alive else "registry",)
        elif registration:
            step = "registration", int(registration)
        else:
            step = ("property", int(one), key) if key else ("entry", int(weakmap), int(under))
        return int(value), step


def command_in_words(command):
    """A command as its row has it: texts and literals as in JSON, names without signs."""
    words = [command[0]]
    for kind, operand in zip(rules.OPERANDS[command[0]] + rules.ONE_MORE.get(command[0], ""), command[1:]):
        is_name = kind in "nca" or (kind == "i" and isinstance(operand, str))
        words.append(operand if is_name else json.dumps(as_json(operand)))
    return " ".join(words)


def told_of_agent(event):
    """The event and the answer of a row, if it has one."""
    match event["event"]:
        case "job":
            return (f"job {event['job']}",)
        case "cleanup job":
            return (f"cleanup job of object {event['registry']}",)
        case "message":
            return f"message of {event['sender']}", rules.printed(event["value"])
        case "did":
            return told_of_command(event)
        case "caught":
            words = command_in_words(event["command"])
            return f"try {event['variable']} {words}", rules.printed(("text", event["error"]))
        case "refused":
            return command_in_words(event["command"] or ["message"]), f"error {event['error']}"
        case "emptied":
            words = command_in_words(event["command"]) if event["command"] else "later collection ends"
            return words, f"emptied {len(event['identities'])}"
        case "taken":
            held = rules.printed(event["held"])
            return f"registration {event['registration']} taken", f"cleanup {event['registration']} held {held}"
        case "skipped":
            return f"no message of {event['sender']}", f"skipped {event['job']}"
    return (event["event"],)


def told_of_command(event):
    words, answer = command_in_words(event["command"]), event["answer"]
    if event["command"][0] == "say":
        return words, f"say {rules.printed(event['values'][0])}"
    if answer is None:
        return (words,)
    return words, " ".join(["keys", *answer["keys"]]) if "keys" in answer else rules.printed(answer["gives"])


def of_ledger(event):
    match event["ledger"]:
        case "opened":
            told = f"ticket {event['ticket']} of {event['agent']}, words {event['words']}"
            return f"block {event['block']} opened", told
        case "posted":
            carried = event["carries"]
            is_block = carried[0] == "block"
            told = f"block {carried[1] + 1}, ticket {carried[1].serial}" if is_block else rules.printed(carried)
            return f"message {event['sender']} to {event['receiver']} posted", told
        case "taken" | "drained" as what:
            return (f"message {event['sender']} to {event['receiver']} {what}",)
        case "spent":
            return (f"ticket {event['ticket']} spent",)
        case "loaded" | "stored" as what:
            return f"word {event['index']} {what} by ticket {event['ticket']}", str(event["word"])
        case "added":
            return f"word {event['index']} added to by ticket {event['ticket']}", f"{event['old']} + {event['addend']}"
        case "slept":
            return f"{event['agent']} sleeps at word {event['index']} by ticket {event['ticket']}", str(event["word"])
        case "notified":
            return f"word {event['index']} notified by ticket {event['ticket']}", str(event["woken"])
        case "woke" | "timed out" as what:
            return f"{event['agent']} wakes", '"ok"' if what == "woke" else '"timed-out"'
        case "waiting":
            return (f"{event['agent']} waits for {event['sender']}",)
        case "passed":
            return (f"{event['agent']} waits no more for {event['sender']}",)
    return (f"{event['agent']} ended",)


class Pictures:
    """A picture in Graphviz's language for each collection."""

    words = ["--dot"]
    HEAD = 4  # how many lines stand first
    SHAPES = {
        "object": "", "symbol": ",shape=ellipse", "WeakRef": ",style=dashed", "WeakMap": ",shape=cylinder",
        "WeakSet": ",shape=folder", "FinalizationRegistry": ",shape=component", "SharedArrayBuffer": ",shape=box3d",
    }

    def parts(self, turns, names):
        for turn in turns:
            if turn.heap:
                yield [*self.lines(turn.heap)]

    def lines(self, heap):
        yield "digraph {"
        yield f'  label="{heap.agent}"'
        yield "  labelloc=t"
        yield "  node [shape=box]"
        for one in heap.emptied:
            yield f'  n{one} [label="emptied {one}",style=filled,color=gray80,fontcolor=gray40]'
        for one in heap.there:
            yield f'  n{one} [label="{heap.kinds[one]} {one}"{self.SHAPES[heap.kinds[one]]}]'
        for name, value in heap.variables.items():
            yield f'  "var {name}" [label="{name}",shape=plaintext]'
            yield f'  "var {name}" -> n{value}'
        if heap.kept:
            yield "  KeptAlive [shape=plaintext]"
        for value in heap.kept:
            yield f"  KeptAlive -> n{value}"
        yield from self.strong(heap)
        yield from self.weak(heap)
        yield "}"

    def strong(self, heap):
        for one, held in heap.properties.items():
            for key, value in held.items():
                yield f'  n{one} -> n{value} [label="{key}"]'
        for one, entries in heap.entries.items():
            for key, value in entries.items():
                yield f"  e{one}_{key} [shape=point]"
                yield f"  n{one} -> e{one}_{key} [arrowhead=none]"
                yield f"  n{key} -> e{one}_{key} [arrowhead=none,style=dashed]"
                if value:
                    yield f"  e{one}_{key} -> n{value}"
        for name, (registry, value) in heap.held.items():
            yield f'  n{registry} -> n{value} [label="held {name}"]'

    def weak(self, heap):
        for one, target in heap.targets.items():
            yield f"  n{one} -> n{target} [style=dashed]"
        for one, members in heap.members.items():
            for member in members:
                yield f"  n{one} -> n{member} [style=dashed]"
        for name, (registry, target) in heap.live.items():
            yield f'  n{registry} -> n{target} [style=dashed,label="registration {name}"]'
