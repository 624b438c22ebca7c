"""Random plans for engines: drawn as the tests draw them, with large tables and long chains besides, or about one thing."""

import json

import random_plans
import rules
import steering
import third_plans

# what plans can be about, and where plans of anything are drawn from, with how often each comes
ABOUT = {
    "kept": [steering.kept], "ephemerons": [steering.ephemerons, steering.tables], "registries": [steering.registries],
    "atomics": [third_plans.alone],
}
STEERED = [steering.kept, steering.ephemerons, steering.tables, steering.registries]
KINDS = {
    random_plans.lives: 8, random_plans.tables: 4, random_plans.registrations: 6, random_plans.any_jobs: 2,
    **dict.fromkeys(STEERED, 1),
}


def alone(rng, about):
    if about == "atomics":
        return third_plans.alone(rng)
    kind = rng.choice(ABOUT[about]) if about else rng.choices([*KINDS], [*KINDS.values()])[0]
    if kind not in STEERED:
        return random_plans.plan_of(rng, kind)
    jobs, callbacks = kind(rng)
    return {"version": 1, "agents": [{"name": "a", "callbacks": callbacks, "jobs": [{"run": run} for run in jobs]}]}


def draw(rng, count, one_agent, messages, symbols=True, about=None):
    """So many plans that the rules accept, as texts: of one agent each, or of several, with blocks and, where they are
    wanted, with messages; or all about one thing. Where symbols can't be held weakly, objects take their places."""
    texts = []
    while len(texts) < count:
        plan = random_plans.shared_plan(rng) if not about and rng.random() < 0.3 else alone(rng, about)
        if not symbols:
            plan = without_symbols(plan)
        if one_agent:
            plan["agents"] = plan["agents"][:1]
        elif not messages and has_messages(plan):
            continue
        text = json.dumps(plan)
        try:
            rules.read_plan(text.encode())
        except rules.Refused:
            continue
        texts.append(text)
    return texts


def runs_of(agent):
    """The commands of each job and callback."""
    return [*agent["callbacks"].values(), *(job["run"] for job in agent["jobs"])]


def has_messages(plan):
    jobs = [job for agent in plan["agents"] for job in agent["jobs"]]
    runs = [run for agent in plan["agents"] for run in runs_of(agent)]
    return any("on" in job for job in jobs) or any(step[0] == "post" for run in runs for step in run)


def without_symbols(value):
    if isinstance(value, list):
        at_word = 2 if value[:1] == ["try"] else 0
        return [("new" if part == "symbol" and at == at_word else without_symbols(part)) for at, part in enumerate(value)]
    return {key: without_symbols(part) for key, part in value.items()} if isinstance(value, dict) else value
