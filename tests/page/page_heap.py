"""What the page makes of traces, in node: words, heaps, distances, the rows of its list and all that leads to each value, beside
those of trace_model.py. The lines are the model's own, so no program is needed."""

import glob
import json
import os
import random
import subprocess

import page_rows
import rules
import third_plans
import trace_check
import trace_forms

# A job that waits comes after cleanup jobs: the page has to know which variable its message goes to.
PLAN = b"""{"version": 1, "agents": [
  {"name": "a", "callbacks": {"c": [["new", "n"]]}, "jobs": [
    {"run": [["registry", "r", "c"], ["new", "x"], ["register", "r", "x", "y"], ["let", "x", null], ["collect"]]},
    {"on": ["b", "m"], "run": [["collect"]]}, {"on": ["b", "n"], "run": [["collect"]]}, {"on": ["b", "o"], "run": [["collect"]]}]},
  {"name": "b", "callbacks": {}, "jobs": [{"run": [["buffer", "s", 1], ["post", "a", "s"], ["post", "a", "s"]]}]}]}"""

TOP = os.path.dirname(os.path.dirname(os.path.dirname(os.path.abspath(__file__))))


class Script:
    """tests/page/page_heap.mjs, asked for plans and their lines."""

    def __init__(self, node):
        words = [*node, os.path.join(TOP, "tests", "page", "page_heap.mjs")]
        self.process = subprocess.Popen(words, stdin=subprocess.PIPE, stdout=subprocess.PIPE)

    def ask(self, *texts):
        for text in texts:
            self.process.stdin.write(len(text).to_bytes(4, "little") + text)
        self.process.stdin.flush()
        return json.loads(self.process.stdout.readline())

    def end(self):
        self.process.stdin.close()
        self.process.wait()


def rows(turns, names):
    """The name, the event and the answer of each row of the page."""
    for turn in turns:
        if turn.event:
            yield [turn.event["agent"], *told(trace_forms.told_of_agent(turn.event))]
        for event in turn.ledger_events:
            yield ["-", *told(trace_forms.of_ledger(event))]
        for block in turn.released:
            yield ["-", f"block {block} released", ""]


def commands(turns):
    """The command of each row, if it has one."""
    for turn in turns:
        if turn.event:
            yield trace_forms.as_json(turn.event.get("command"))
        yield from [None] * (len(turn.ledger_events) + len(turn.released))


def told(words):
    return words[0], words[1] if len(words) > 1 else ""


def nodes(heap):
    """The nodes of the page's picture: what each is called, its kind, how far it is from the roots, and its block."""
    yield from ([f"var {name}", None, None, None] for name in heap.variables)
    if heap.kept:
        yield ["KeptAlive", None, None, None]
    yield from ([f"n{one}", None, None, None] for one in heap.emptied)
    yield from ([f"n{one}", heap.kinds[one], heap.depths.get(one), heap.blocks.get(one)] for one in heap.there)
    yield from ([f"e{weakmap}_{key}", None, None, None] for weakmap, entries in heap.entries.items() for key in entries)


def edges(heap):
    """Its edges: from where, to where, of what kind, and what stands at it."""
    yield from ([f"var {name}", f"n{value}", "strong", ""] for name, value in heap.variables.items())
    yield from (["KeptAlive", f"n{value}", "strong", ""] for value in dict.fromkeys(heap.kept))
    yield from ([f"n{one}", f"n{value}", "strong", key] for one, held in heap.properties.items() for key, value in held.items())
    for weakmap, entries in heap.entries.items():
        for key, value in entries.items():
            point = f"e{weakmap}_{key}"
            yield from ([f"n{weakmap}", point, "part", ""], [f"n{key}", point, "key", ""])
            if value:
                yield [point, f"n{value}", "strong", ""]
    yield from ([f"n{one}", f"n{target}", "weak", ""] for one, target in heap.targets.items())
    yield from ([f"n{one}", f"n{member}", "weak", ""] for one, members in heap.members.items() for member in members)
    yield from ([f"n{registry}", f"n{one}", "weak", f"registration {name}"] for name, (registry, one) in heap.live.items())
    yield from ([f"n{registry}", f"n{one}", "strong", f"held {name}"] for name, (registry, one) in heap.held.items())
    for name, (registry, one) in heap.tokens.items():
        if heap.live.get(name) != (registry, one):
            yield [f"n{registry}", f"n{one}", "weak", f"token {name}"]


def leading(heap):
    """All that leads to each value, by its number: the steps that keep it, and what only holds it weakly."""
    names = {"registration": "held"}
    found = {str(one): {(names.get(step[0], step[0]), *step[1:]) for step in heap.steps.get(one, [])} for one in heap.there}
    weak = [*(("target", one, target) for one, target in heap.targets.items())]
    weak += [("key", one, key) for one, entries in heap.entries.items() for key in entries]
    weak += [("member", one, member) for one, members in heap.members.items() for member in members]
    weak += [("registered", name, target) for name, (_, target) in heap.live.items()]
    weak += [("token", name, token) for name, (_, token) in heap.tokens.items()]
    for kind, one, value in weak:
        found[str(value)].add((kind, one))
    return {one: sorted(map(str, map(list, edges))) for one, edges in found.items()}


def compare(count, script, what, data):
    turns, names = trace_check.model(data)
    lines = trace_check.written(trace_forms.Lines(), turns, names, True, lambda steps: steps[0])
    got = script.ask(data, lines.encode())
    words = [row[:3] for row in got["rows"]]
    count.expect(f"the page's words of {what}", words, [*rows(turns, names)])
    # The lines show no `try`.
    marked = [row[3] and rules.bared(json.loads(row[3])) for row in got["rows"]]
    count.expect(f"the page's commands of {what}", marked, [*commands(turns)])
    heaps = [turn.heap for turn in turns if turn.heap]
    count.expect(f"the page's list of {what}", got["listed"], page_rows.rows_of(data, False))
    led = [{one: sorted(map(str, found)) for one, found in picture["leading"].items()} for picture in got["pictures"]]
    count.expect(f"what leads to each value in {what}", led, [*map(leading, heaps)])
    for part, of_heap in (("nodes", nodes), ("edges", edges)):
        wanted = [sorted(map(str, of_heap(heap))) for heap in heaps]
        count.expect(f"the page's {part} in {what}", [sorted(map(str, one[part])) for one in got["pictures"]], wanted)


def try_all(count, node, plans):
    """The examples, and of so many random plans those that have no fault; `node` are the words that call it."""
    script, chance = Script(node), random.Random(plans)
    compare(count, script, "the plan above", PLAN)
    for path in sorted(glob.glob(os.path.join(TOP, "examples", "*.json"))):
        with open(path, "rb") as file:
            compare(count, script, os.path.basename(path), file.read())
    for number in range(plans):
        data = third_plans.text_of_any(chance)
        try:
            rules.read_plan(data)
        except rules.Refused:
            continue
        compare(count, script, f"plan {number} of {plans}", data)
    script.end()
