"""Random plans without a race: their agents have words of their own in each block, or hand blocks on, or share none."""

import random_plans
import rules
import third_plans

MOST = 16384  # the most words of a block
# where in a command the index is
INDEX_AT = {word: uses.index("i") + 1 for word, uses in random_plans.USES.items() if "i" in uses}


def step_apart(step, place, count):
    """The command with the words that this agent of so many has. An index that a block has not stays one."""
    if step[0] == "buffer":
        return [*step[:2], min(step[2] * count, MOST)]
    at = INDEX_AT.get(step[0])
    if at is None or not 0 <= step[at] < MOST:
        return step
    return [*step[:at], step[at] % (MOST // count) * count + place, *step[at + 1 :]]


def agent_apart(agent, place, count):
    def run_apart(run):
        return [step_apart(step, place, count) for step in run]

    callbacks = {call: run_apart(run) for call, run in agent["callbacks"].items()}
    jobs = [{**job, "run": run_apart(job["run"])} for job in agent["jobs"]]
    return {**agent, "callbacks": callbacks, "jobs": jobs}


def apart(plan):
    """The plan with as many times the words in each block as there are agents, of which each has its own."""
    agents = plan["agents"]
    return {**plan, "agents": [agent_apart(agent, place, len(agents)) for place, agent in enumerate(agents)]}


def plan_of(jobs):
    """A plan without callbacks of these agents, by name."""
    agents = [{"name": name, "callbacks": {}, "jobs": made} for name, made in jobs.items()]
    return {"version": 1, "agents": agents}


def uses_of_block(rng):
    """Commands on words of the block in m, which now and then has no such word."""
    for _ in range(rng.randint(0, 6)):
        at, number = rng.choice([0, 0, 1, 2, 3] * 10 + [-1, 4]), rng.choice(random_plans.NUMBERS)
        word, operands = rng.choice(random_plans.ON_WORDS), {"x": "x", "b": "m", "i": at, "n": number}
        yield [word, *(operands[use] for use in random_plans.USES[word])]
        if word in random_plans.ASSIGNING:
            yield ["say", "x"]


def handed_on(rng):
    """A plan in which a few blocks go from hand to hand, each a way of its own."""
    names = rng.sample(random_plans.AGENTS, rng.choice([2, 2, 3, 3, 4, 5, 6, 7, 8]))
    jobs = {name: [] for name in names}

    def job(here, begun):
        """This agent uses the block in m and posts it on; gives who posts it to whom."""
        after = rng.choice([name for name in names if name != here])
        begun["run"] += [*uses_of_block(rng), ["post", after, "m"], ["let", "m", None]]
        begun["run"] += [["collect"]] * (rng.random() < 0.2)
        jobs[here].append(begun)
        return here, after

    ways = [job(rng.choice(names), {"run": [["buffer", "m", 4]]}) for _ in range(rng.randint(1, 4))]
    for _ in range(rng.randint(5, 40)):
        number = rng.randrange(len(ways))
        before, here = ways[number]
        ways[number] = job(here, {"on": [before, "m"], "run": []})
    return plan_of(jobs)


def random_plan(rng):
    """A plan of version 1 or 2, or one of these as version 3 has it, with and without agents that wait at words."""
    plan, version = early_plan(rng), rng.random()
    if version < 0.75:
        return plan
    plan = third_plans.in_variables(rng, plan)
    return plan if version < 0.8 else waiting(rng, plan)


def waiting(rng, plan):
    """The plan, of version 3, whose agents here and there wait at a word that they have just used, and say how that ended.
    Nobody notifies, so who falls asleep sleeps until no agent can go on."""
    for agent in plan["agents"]:
        for job in agent["jobs"]:
            job["run"] = [done for step in job["run"] for done in [step, *wait_after(rng, step)]]
    return plan


def wait_after(rng, step):
    """Here and there a wait at the word of this command, for a small number: so it may sleep, or not."""
    operands = dict(zip(rules.USES[step[0]], step[1:]))
    if not {"b", "i"} <= operands.keys() or rng.random() > 0.15:
        return []
    return [["wait", "w", operands["b"], operands["i"], rng.choice([0, 0, 1, 2, 5])], ["say", "w"]]


def early_plan(rng):
    kind, version = rng.random(), rng.choice(random_plans.VERSIONS)
    if kind < 0.1:
        jobs_of = rng.choice([random_plans.lives, random_plans.tables, random_plans.registrations])
        if version == 2:
            jobs_of = rng.choice([random_plans.later_lives, random_plans.laters])
        return random_plans.plan_of(rng, jobs_of, version)
    if kind < 0.25:
        return random_plans.with_laters(rng, {**handed_on(rng), "version": 2}) if version == 2 else handed_on(rng)
    return apart(random_plans.shared_plan(rng, version))
