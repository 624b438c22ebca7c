"""Mistakes that a person makes in a plan, and what is said of each, by hand.

The rows stand in mistakes.txt: after `== ` what is wrong, then the plan's text, then after `-- ` what is said, line by
line. Behind `run: ` stand the commands of the only job of an agent `a` that has a callback `cb`, beside an agent `b`;
behind `callback: ` the commands of `cb`. Rows that are long, or no text, are made here.
"""

import json
import os

TOP = os.path.dirname(os.path.dirname(os.path.dirname(os.path.abspath(__file__))))


def plan_of(run="[]", callback="[]"):
    """A plan of two agents, the first with these commands."""
    agent = f'{{"name": "a", "callbacks": {{"cb": {callback}}}, "jobs": [{{"run": {run}}}]}}'
    return f'{{"version": 1, "agents": [{agent}, {{"name": "b", "callbacks": {{}}, "jobs": []}}]}}'


def text_of(lines):
    text = "\n".join(lines)
    if text.startswith("run: "):
        return plan_of(run=text[5:])
    if text.startswith("callback: "):
        return plan_of(callback=text[10:])
    return text


def written():
    """Each row of mistakes.txt: its name, the plan's bytes, and the lines that are wanted."""
    with open(os.path.join(TOP, "tests", "rows", "mistakes.txt"), encoding="utf-8", newline="\n") as file:
        for block in file.read().split("== ")[1:]:
            before, after = f"\n{block}".split("\n-- ")
            name, *lines = before[1:].split("\n")
            yield name, text_of(lines).encode(), after.rstrip("\n").split("\n")


def agent(name="a", callbacks=(), jobs=()):
    return {"name": name, "callbacks": dict(callbacks), "jobs": list(jobs)}


def of_agents(*agents):
    return json.dumps({"version": 1, "agents": agents}, separators=(",", ":")).encode()


def shown(found):
    """A value as the last line shows it."""
    text = json.dumps(found, separators=(",", ":"))
    return "found " + (text if len(text) <= 60 else text[:60] + "..")


def made():
    """Rows that are long, or no text."""
    yield "a byte that is no UTF-8", b'{"version": 1,\n "\xff": 2}', ["S1 line 2 column 3", "This byte is no UTF-8."]
    mark = "A byte order mark stands before the plan: JSON has none."
    yield "a byte order mark", b"\xef\xbb\xbf{}", ["S1 line 1 column 1", mark]
    yield "too deep", b"[" * 200, ["S1 line 1 column 128", "More than 127 brackets are open here."]
    control = "In a text JSON writes this letter with a backslash."
    yield "a tab in a text", b'{"a\tb": 1}', ["S1 line 1 column 4", control]
    nine = [agent(f"a{number}") for number in range(9)]
    yield "nine agents", of_agents(*nine), ['S4 "/agents"', "A plan has 1 to 8 agents, and here are 9.", None]
    text = "x" * 257
    let = ["let", "x", text]
    said = "Operand 2 of let has 257 letters, and a text has at most 256."
    yield "a long text", of_agents(agent(jobs=[{"run": [let]}])), ['S8 "/agents/0/jobs/0/run/0"', said, shown(let)]
    callbacks = {f"c{number}": [] for number in range(1001)}
    said = "An agent has at most 1000 callbacks, and this one has 1001."
    yield "1,001 callbacks", of_agents(agent(callbacks=callbacks)), ['S10 "/agents/0"', said, None]
    said = "An agent has at most 1000 jobs, and this one has 1001."
    yield "1,001 jobs", of_agents(agent(jobs=[{"run": []}] * 1001)), ['S10 "/agents/0"', said, None]
    many = [["collect"]] * 10001
    said = "A job has at most 10000 commands, and this one has 10001."
    yield "10,001 commands", of_agents(agent(jobs=[{"run": many}])), ['S10 "/agents/0/jobs/0/run"', said, shown(many)]
    said = "A callback has at most 10000 commands, and this one has 10001."
    yield "10,001 commands of a callback", of_agents(agent(callbacks={"c": many})), ['S10 "/agents/0/callbacks/c"', said, None]
    ten = {f"c{number}": [] for number in range(10)}
    registry = ["registry", "r", "d"]
    names = ", ".join(f'"c{number}"' for number in range(8))
    said = f'There is no callback "d". Callbacks of agent a: {names}, ...'
    plan = of_agents(agent(callbacks=ten, jobs=[{"run": [registry]}]))
    yield "ten callbacks", plan, ['S6 "/agents/0/jobs/0/run/0"', said, shown(registry)]
