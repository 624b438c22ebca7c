"""Random plans whose agents all use the words of one block at the same time, and post to each other."""

import json

import drawing
import rules

NUMBERS = [0, 1, -1, 65535, 65536, 2**31, 2**32 - 1, -(2**32), 305419896, 2863311530]
WORDS = 2


def word_command(rng):
    """A command on a word of the block, which the variable b holds."""
    index, number = rng.randrange(WORDS), rng.choice(NUMBERS)
    loads, stores, adds = ["load", "x", "b", index], ["store", "b", index, number], ["add", "x", "b", index, number]
    return rng.choice([loads, loads, stores, adds])


def post_command(rng, others):
    return [["let", "p", rng.choice(NUMBERS)], ["post", rng.choice(others), "p"]]


def job(rng, others, most):
    """The commands of a job, some of which post, or post what can't be posted."""
    run = [word_command(rng) for _ in range(rng.randint(1, most))]
    if rng.random() < 0.4:
        run += post_command(rng, others)
    if rng.random() < 0.1:
        run += [[rng.choice(["symbol", "weakmap", "weakset", "new"]), "p"], ["post", rng.choice(others), "p"]]
    return {"run": run}


def plan(rng, most=6):
    names = ["a", "b", "c", "d"][: rng.randint(2, 4)]
    first, *others = names
    agents = [[{"run": [["buffer", "b", WORDS], *(["post", other, "b"] for other in others)]}]]
    agents += [[{"on": [first, "b"], "run": []}] for _ in others]
    for name, jobs in zip(names, agents):
        peers = [other for other in names if other != name]
        for _ in range(rng.randint(1, 2)):
            jobs.append(job(rng, peers, most))
            if rng.random() < 0.3:
                jobs.append({"on": [rng.choice(peers), "y"], "run": [["say", "y"], word_command(rng)]})
    return {"version": 1, "agents": [{"name": name, "callbacks": {}, "jobs": jobs} for name, jobs in zip(names, agents)]}


def draw(rng, count):
    """So many plans of several agents that the rules accept, as texts: by turns one of these and one of any kind."""
    texts = []
    while len(texts) < count:
        text = json.dumps(plan(rng))
        rules.read_plan(text.encode())
        texts += [text, *drawing.draw(rng, 1, False, True)]
    return texts[:count]
