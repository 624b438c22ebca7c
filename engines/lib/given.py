"""The words that compare and fuzz share, and what they stand for. What is wrong with them is told in one line."""

import argparse
import json
import os
import re
import shlex
import sys

import corpus
import drawing
import hosts
import rules
import session
import ways

WRONG = 2  # the status where the words, or what they name, can't be used


class Wrong(Exception):
    """Words, files or plans that can't be used."""


def parser(doc):
    made = argparse.ArgumentParser(description=doc, formatter_class=argparse.RawDescriptionHelpFormatter)
    made.add_argument("engine", metavar="ENGINE", choices=sorted(hosts.ENGINES))
    made.add_argument("--seed", type=int, metavar="S")
    made.add_argument("--agents", action="store_true")
    made.add_argument("--about", choices=sorted(drawing.ABOUT))
    made.add_argument("--stress", action="store_true")
    made.add_argument("--flags", type=shlex.split, default=[], metavar="WORDS")
    made.add_argument("--part", type=part, default=(1, 1), metavar="K/N")
    made.add_argument("--fault", metavar="NAME")
    made.add_argument("--no-shrink", action="store_true")
    made.add_argument("--required", action="store_true")
    made.add_argument("--program", default=session.PROGRAM, metavar="PATH")
    return made


def part(text):
    """The number of a part, and of how many."""
    found = re.fullmatch(r"([1-9]\d*)/([1-9]\d*)", text)
    if not found or int(found[1]) > int(found[2]):
        raise argparse.ArgumentTypeError(f"{text} is no part such as 1/4")
    return int(found[1]), int(found[2])


def faults():
    """The faults that can be planted."""
    files = sorted(os.listdir(os.path.join(hosts.HERE, "faults")))
    return [name.removesuffix(".js") for name in files if name.endswith(".js") and name != "collections.js"]


def begin(given):
    """The session that the words ask for."""
    if given.fault and given.fault not in faults():
        raise Wrong(f"there is no fault {given.fault}; there are {', '.join(faults())}")
    engine = hosts.engine(given.engine)
    engines = ways.stressed(engine) if given.stress else [engine]
    if given.flags:
        engines = [ways.with_flags(engine, given.flags) for engine in engines]
    return session.Session(engines, session.reporter(given.program), session.fault_scripts(given.fault))


def what(given, plans):
    """What the plans are, in words, and how the engine is run."""
    about = f" about {given.about}" if given.about else ""
    agents = ", of several agents" if given.agents else ""
    how = ", stressed" * given.stress + (f", {shlex.join(given.flags)}" if given.flags else "")
    return f"{plans}{about}{agents}{how}"


def plans_in(places):
    """The names and texts, each in one line, of all plans in these files and folders."""
    for place in places:
        if not corpus.paths_in([place]):
            raise Wrong(f"there is no plan in {place}" if os.path.exists(place) else f"there is no {place}")
    return [(os.path.relpath(path), one_line(path)) for path in corpus.paths_in(places)]


def one_line(path):
    """A plan's text in one line. It must be one that the rules accept, with commands that an engine can be asked for."""
    with open(path, "rb") as file:
        data = file.read()
    try:
        plan = rules.read_plan(data)
    except rules.Refused as refused:
        raise Wrong(f"{path}: {refused}") from None
    words = {rules.bared(step)[0] for agent in plan["agents"] for run in drawing.runs_of(agent) for step in run}
    if later := sorted(words & {*rules.SINCE_TWO}):
        raise Wrong(f"{path}: no engine can be asked for {', '.join(later)}, which version 2 has")
    return json.dumps(json.loads(data))


def run(main, given):
    """The status of a command whose words these are."""
    try:
        return main(given)
    except hosts.Missing as missing:
        print(json.dumps({"skipped": str(missing)}) if getattr(given, "json", None) is True else f"skipped: {missing}")
        return WRONG if given.required else 0
    except (Wrong, ways.NoWay, session.Silent) as wrong:
        print(f"{os.path.basename(sys.argv[0])}: {wrong}", file=sys.stderr)
        return WRONG
