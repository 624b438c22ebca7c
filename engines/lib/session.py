"""A comparison of many plans: what was found of each, and the shortest plans of what is contradicted."""

import itertools
import json
import os
import subprocess
import time

import answering
import comparing
import hosts
import rules
import shortening
from verdicts import NEVER_CALLED, NEVER_EMPTIED

TOP = os.path.dirname(hosts.HERE)
PROGRAM = os.path.join(TOP, "crates", "clusterrun", "out", "clusterrun")
NO_ANSWER = ("no answer", "")
FEWEST = 20  # that something never happened is said where it could have happened so often
MOST_LOOKED_AT = 20  # so many plans are shrunk and told of one comparison
AT_ONCE = 100  # so many plans are run at once
TURN = 10  # so many of them before the next of several ways to run the engine is taken
TRIES = 3  # so often is a plan run again alone, to see that it shows the same
QUICK = 20.0  # seconds in which an engine that gives no answer must have ended for its plan to be shrunk


class Silent(Exception):
    """A host that does not answer its first plan, with what it wrote on standard error."""


def holds_symbols(engine):
    """Whether the engine can hold symbols weakly, as the 14th edition asks. It is the first plan that a host is given."""
    answer = answering.answers(engine, [answering.PROBE])[0]
    if "agents" not in answer:
        raise Silent(f"{engine.name} gave no answer to its first plan: {answer.get('none') or 'nothing on standard error'}")
    return not any(line.startswith("error ") for line in answer["agents"][0])


def reporter(program):
    """What gives the report of a plan's text: the program, or the rules alone where it is not built."""
    if not os.path.isfile(program):
        return None

    def report(text):
        ran = subprocess.run([program, "run", "--turns"], input=text, capture_output=True, text=True, check=False)
        return ran.stdout

    return report


class Found:
    """What was found of one plan, run in one of the ways to run the engine."""

    def __init__(self, name, text, engine):
        self.name, self.text, self.engine = name, text, engine
        self.verdict, self.skipped, self.no_answer, self.misreported = None, None, None, False
        self.shortest = None
        self.showed_again = None  # whether the plan, run alone, showed the same again; None where it was not tried

    def contradiction(self):
        """The rule that was broken, and its section."""
        contradiction = self.verdict and self.verdict.contradiction
        return (contradiction.broken.value[0], contradiction.section) if contradiction else None

    def trouble(self):
        """What has to be looked at, if anything: the rule that was broken, or that there was no answer."""
        return self.contradiction() or (NO_ANSWER if self.no_answer is not None else None)


class Session:
    """The plans of one comparison, with what was found. The engine is given as one or several ways to run it."""

    def __init__(self, engines, report, scripts):
        self.engines, self.report, self.scripts = engines, report, scripts
        self.symbols = holds_symbols(engines[0])
        self.next_engine = itertools.cycle(engines)
        self.found, self.what = [], "plans"

    def run(self, plans):
        count = TURN if len(self.engines) > 1 else AT_ONCE
        for start in range(0, len(plans), count):
            self.run_some(next(self.next_engine), plans[start : start + count])

    def run_some(self, engine, plans):
        answers = answering.answers(engine, [text for _, text in plans], self.scripts)
        for (name, text), answer in zip(plans, answers, strict=True):
            self.found.append(self.look(Found(name, text, engine), answer, self.report))

    def look(self, found, answer, report):
        """What an engine's answer to a plan comes to."""
        found.skipped, found.no_answer = answer.get("skipped"), answer.get("none")
        plan = rules.read_plan(found.text.encode())
        if report:
            found.misreported = report(found.text) != rules.report(plan)
        if "agents" in answer:
            is_vague = getattr(found.engine, "is_vague", False)
            found.verdict = comparing.compare(plan, answer["agents"], self.symbols, is_vague)
        return found

    def contradicted(self):
        return [found for found in self.found if found.contradiction()]

    def troubled(self):
        return [found for found in self.found if found.trouble()]

    def never(self):
        """What never happened in the whole run, though it could have often, with how often it could, by rule."""
        verdicts = [found.verdict for found in self.found if found.verdict]
        chances, due = sum(verdict.chances for verdict in verdicts), sum(verdict.due for verdict in verdicts)
        if chances >= FEWEST and not any(verdict.emptied for verdict in verdicts):
            yield (*NEVER_EMPTIED, chances)
        if due >= FEWEST and not any(verdict.came for verdict in verdicts):
            yield (*NEVER_CALLED, due)

    def shrink_all(self, most=MOST_LOOKED_AT):
        """Finds the shortest plan of each contradiction, and of each that had no answer, of so many at most."""
        for found in self.troubled()[:most]:
            self.shrink(found)

    def shrink(self, found):
        wanted, plan, began = found.trouble(), json.loads(found.text), time.monotonic()
        tries = 1 if wanted == NO_ANSWER else TRIES
        found.showed_again = any(self.show(found.engine, [plan], wanted)[0] for _ in range(tries))
        if found.showed_again and (wanted != NO_ANSWER or time.monotonic() - began < QUICK):
            shortest = shortening.shrink(plan, lambda plans: self.show(found.engine, plans, wanted))
            found.shortest = json.dumps(shortest)

    def show(self, engine, plans, wanted):
        """Which of these plans show this, a rule and its section."""
        texts = [json.dumps(plan) for plan in plans]
        answers = answering.answers(engine, texts, self.scripts)
        looked = [self.look(Found("", text, engine), answer, None) for text, answer in zip(texts, answers)]
        return [found.trouble() == wanted for found in looked]

    def status(self):
        """0 where nothing is to be looked at, 1 where something was contradicted or never happened, 2 where the program's
        report is not that of the rules, 3 where there was no answer."""
        if any(found.misreported for found in self.found):
            return 2
        if self.contradicted() or [*self.never()]:
            return 1
        return 3 if self.troubled() else 0


def fault_scripts(fault):
    """The scripts that plant a fault."""
    return [os.path.join(hosts.HERE, "faults", f"{name}.js") for name in ("collections", fault)] if fault else []


def compare_all(engine, plans, report, fault=None):
    session = Session([engine], report, fault_scripts(fault))
    session.run(plans)
    return session
