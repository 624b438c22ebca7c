"""Wrong traces, which trace_check.py has to refuse: those of the model itself, each with one thing changed."""

import random
import re

import rules
import third_plans
import trace_check
import trace_forms

FORMS = [trace_forms.Rows, trace_forms.Lines, trace_forms.Pictures]
# An entry under a key of another entry, two objects that hold each other, and one that two ways lead to.
PLAN = """{"version": 1, "agents": [{"name": "a", "callbacks": {}, "jobs": [{"run": [
  ["weakmap", "m"], ["new", "k"], ["new", "l"], ["new", "v"], ["wmset", "m", "k", "l"], ["wmset", "m", "l", "v"],
  ["new", "o"], ["new", "q"], ["set", "o", "p", "q"], ["set", "q", "p", "o"], ["set", "k", "z", "v"], ["weakref", "w", "q"],
  ["let", "l", null], ["let", "v", null], ["let", "q", null]]},
  {"run": [["weakref", "u", "o"], ["let", "u", null], ["collect"]]}]}]}"""
# The rows after the collection of this plan, of all values, without their column; then changes, of rows to other ones.
RIGHT = """1 variable m|2 variable k|5 variable o|7 variable w|3 the entry of 1 under 2|6 property p of 5|4 property z of 2"""
WRONG = {
    "the key of an entry is not told": {"2 variable k": None},
    "a way begins nowhere": {"5 variable o": "5 property p of 6"},
    "a value is left out": {"4 property z of 2": None},
    "an emptied value is told": {"7 variable w": "7 variable w|8 variable u"},
    "a variable that holds something else": {"2 variable k": "2 variable o"},
    "a variable that there is not": {"2 variable k": "2 variable z"},
    "what is not kept alive": {"2 variable k": "2 KeptAlive"},
    "no FinalizationRegistry": {"1 variable m": "1 a FinalizationRegistry"},
    "a registration that there is not": {"1 variable m": "1 registration 1"},
    "another key": {"6 property p of 5": "6 property v of 5"},
    "a longer way": {"4 property z of 2": "4 the entry of 1 under 3"},
    "one row twice": {"2 variable k": "2 variable k|2 variable k"},
    "an entry under a key that it has not": {"3 the entry of 1 under 2": "3 the entry of 1 under 5"},
    "no blank": {"1 variable m": "1 variable  m"},
}
# Of two ways that are equally short.
ALSO = {"5 variable o": "5 KeptAlive"}
# A refusal that is caught, and a command behind `try` that is done; what of its trace stands between the beginning of its job
# and the end, without the column of the agent's name or the first member; and changes of it.
TRIED = """{"version": 3, "agents": [{"name": "a", "callbacks": {}, "jobs": [{"run": [
  ["try", "e", "weakref", "w", "x"], ["try", "e", "say", "e"]]}]}]}"""
SAID = 'say "TypeError: cannot be held weakly"'
TRIED_ROWS = [f'{"try e weakref w x":32}  "TypeError: cannot be held weakly"', f"{'say e':32}  {SAID}"]
TRIED_LINES = [
    '"event":"caught","variable":"e","command":["weakref","w","x"],"error":"TypeError: cannot be held weakly"}',
    '"event":"did","command":["say","e"],"values":["TypeError: cannot be held weakly"],"answer":null}',
]
WRONG_ROWS = {
    "the let of the text": (0, 'let e "TypeError: cannot be held weakly"  "TypeError: cannot be held weakly"'),
    "no try": (0, f'{"weakref w x":32}  "TypeError: cannot be held weakly"'),
    "an error": (0, f'{"try e weakref w x":32}  error TypeError: cannot be held weakly'),
    "no error": (0, "try e weakref w x"),
    "another variable": (0, f'{"try w weakref w x":32}  "TypeError: cannot be held weakly"'),
    "a try where nothing was refused": (1, f"{'try e say e':32}  {SAID}"),
    "the variable as it was": (1, f"{'say e':32}  say undefined"),
    "the end of the job": (1, "job ends"),
}
WRONG_LINES = {
    "the let of the text": (0, '"event":"did","command":["let","e","TypeError: cannot be held weakly"],"values":[],"answer":'
                               '{"gives":"TypeError: cannot be held weakly"}}'),
    "a refusal": (0, '"event":"refused","command":["weakref","w","x"],"error":"TypeError: cannot be held weakly"}'),
    "the whole command": (0, TRIED_LINES[0].replace('["weakref"', '["try","e","weakref"')),
    "another variable": (0, TRIED_LINES[0].replace('"e"', '"w"')),
    "a try where nothing was refused": (1, TRIED_LINES[1].replace('["say"', '["try","e","say"')),
}


def row(told):
    value, by = told.split(" ", 1)
    step = f"kept as {by}" if by.startswith("a ") else f"kept by {by}"
    return f"a    {value:30}  {step}"


def by_hand(count):
    """The changes of the plan above."""
    turns, names = trace_check.model(PLAN.encode())
    form = trace_forms.Rows()
    text = trace_check.written(form, turns, names, True, lambda steps: steps[0])
    head, kept, end = re.fullmatch(r"(.*emptied 1\n[^\n]*emptied\n)(.*)(a  job ends\n.*)", text, re.S).groups()

    def fault(changes):
        told = "|".join(changes.get(one, one) or "" for one in RIGHT.split("|")).split("|")
        return trace_check.fault(form, turns, names, True, head + "".join(f"{row(one)}\n" for one in told if one) + end)

    count.expect("as many rows by hand", len(kept.splitlines()), len(RIGHT.split("|")))
    count.expect("the right rows", fault({}), None)
    count.expect("another right row", fault(ALSO), None)
    for what, changes in WRONG.items():
        count.add(f"refused: {what}", None if fault(changes) else "accepted")


def of_tried(count):
    """A caught refusal, and its changes."""
    turns, names = trace_check.model(TRIED.encode())
    for form, before, right, wrong in (
        (trace_forms.Rows(), "a  ", TRIED_ROWS, WRONG_ROWS), (trace_forms.Lines(), '{"agent":"a",', TRIED_LINES, WRONG_LINES),
    ):
        text = trace_check.written(form, turns, names, False, None)
        told = "".join(f"{before}{line}\n" for line in right)
        count.expect(f"a caught refusal {form.words}", told in text, True)
        for what, (at, line) in wrong.items():
            said = trace_check.fault(form, turns, names, False, text.replace(right[at], line))
            count.add(f"refused: of a caught refusal {what} {form.words}", None if said else "accepted")


def changes(chance, form, lines):
    """Changes of one thing, each of which is wrong: from which line to which one, and what stands there then."""
    for at, line in enumerate(lines):
        yield at, at + 1, []
        yield at, at, [line]
        is_kept = not isinstance(form, trace_forms.Pictures) and form.is_kept(line)
        if digits := [*re.finditer(r"\d", line)] if not is_kept else []:
            where = chance.choice(digits).start()
            yield at, at + 1, [line[:where] + str((int(line[where]) + 1) % 10) + line[where + 1:]]


def reasons(heap, is_all, told):
    """Wrong lists of what keeps values, each with one reason changed: a longer way, one that comes too early, one from
    elsewhere."""
    for at, (value, step) in enumerate(told):
        before, after = told[:at], told[at + 1:]
        for other in heap.steps[value]:
            if heap.after(other) != heap.depths[value]:
                yield [*before, (value, other), *after]
        if heap.depths[value] > 1:
            yield [(value, step), *before, *after]
        for other, (_, elsewhere) in enumerate(told):
            if other != at and elsewhere not in heap.steps[value]:
                yield [*before, (value, elsewhere), *after]
    if not is_all:
        for value in heap.depths.keys() - dict(told).keys():
            yield [*told, (value, heap.steps[value][0])]
    for value in heap.emptied:
        yield [*told, (value, ("variable", "x"))]


def of_plan(count, chance, what, data):
    """Changes of the traces of one plan."""
    turns, names = trace_check.model(data)
    is_all = chance.random() < 0.5
    for kind in FORMS:
        form = kind()
        text = trace_check.written(form, turns, names, is_all, chance.choice)
        count.expect(f"{what} as the model writes it", trace_check.fault(form, turns, names, is_all, text), None)
        lines = text.splitlines()
        for begin, end, put in chance.sample(found := [*changes(chance, form, lines)], min(10, len(found))):
            wrong = [*lines[:begin], *put, *lines[end:]]
            said = trace_check.fault(form, turns, names, is_all, "".join(f"{line}\n" for line in wrong))
            count.add(f"refused: a change of {what}", None if said else f"accepted {wrong}")
    for heap in filter(None, (turn.heap for turn in turns)):
        told = heap.ways(is_all, chance.choice)
        for wrong in reasons(heap, is_all, told):
            count.add(f"refused: a reason of {what}", None if heap.fault(is_all, wrong) else f"accepted {wrong}")


def try_all(count, plans, seed):
    """Counts the changes of the plans above, and those of so many random plans."""
    by_hand(count)
    of_tried(count)
    chance = random.Random(seed)
    for number in range(plans):
        data = third_plans.text_of_any(chance)
        try:
            rules.read_plan(data)
        except rules.Refused:
            continue
        of_plan(count, chance, f"plan {number} of {seed}", data)
