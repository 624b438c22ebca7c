#!/usr/bin/env python3
"""Comparing engines: what a line of an engine is called, the corpus, and, where node is installed, node itself: the
corpus and random plans without a contradiction, and each planted fault found and called by its rule.

Usage: engines.py PROGRAM. Prints what fails, what was skipped, and `N passed, M failed` last.
"""

import json
import os
import random
import subprocess
import sys

TOP = os.path.dirname(os.path.dirname(os.path.dirname(os.path.abspath(__file__))))
ENGINES = os.path.join(TOP, "engines")
sys.path[:0] = [os.path.join(TOP, "tests", "lib"), os.path.join(ENGINES, "lib")]

import comparing
import corpus
import drawing
import given
import hosts
import rules
import session
from verdicts import ATOMICS, WEAKMAP, Broken, Kind

RANDOM_PLANS, WITH_AGENTS, OF_VERSION_3, SEED = 40, 20, 20, 50
# each fault with the rules of which it breaks one first, the section where the rule leaves it open, and the tests that
# show it; a callback that comes early may break any rule on callbacks first, and takes what is unregistered later
FAULTS = {
    "deref": ([Broken.GIVEN_AGAIN], None, "deref"),
    "twice": ([Broken.CLEANED_TWICE], None, "registrations"),
    "kept": ([Broken.EMPTIED_KEPT], None, "kept-alive"),
    "entry": ([Broken.ANSWERED], WEAKMAP, "maps"),
    "add": ([Broken.ANSWERED], ATOMICS, "atomics"),
    "early": ([], None, "registrations"),
    "unregister": ([Broken.CLEANED_UNREGISTERED], None, "tokens"),
    "reached": ([Broken.EMPTIED_LIVE], None, "deref"),
}
MOST_PLANS, AT_ONCE = 200, 10  # a fault must show within so many plans, of which so many are run at once
MOST_COMMANDS = 8  # the shortest plan of the fault that is shrunk has no more

# A WeakRef that goes in the job in which it gave its target: no collection but one in that job was asked for.
DROPPED = "registry f c; new a; weakref v a; weakref w a; register f a n; let a null | deref b v; let b null; let v null; collect"
IN_JOB = ["# job", "# ended", "# job", "# deref object 2"]
GOES = "registry f c; new a; new b; weakref w a; register f a n; register f b n; let a null; let b null"
# What an engine may say of a plan, job by job, and what that is.
ANSWERS = [
    ("the same", "new a; weakref w a; let a null | collect; deref b w; say b",
     ["# job", "# ended", "# job", "# deref undefined", "say undefined", "# ended"], {Kind.SAME}),
    ("retained", "new a; weakref w a; let a null | collect; deref b w; say b",
     ["# job", "# ended", "# job", "# deref object 1", "say object 1", "# ended"], {Kind.RETAINED}),
    ("emptied before it was asked to", "new a; weakref w a; let a null | deref b w; say b",
     ["# job", "# ended", "# collected", "# job", "# deref undefined", "say undefined", "# ended"], {Kind.EARLIER}),
    ("another order of callbacks", f"{GOES} | collect",
     ["# job", "# ended", "# job", "# ended", "cleanup 2 held undefined", "# cleaned 2", "cleanup 1 held undefined",
      "# cleaned 1"], {Kind.ORDER}),
    ("no callbacks", f"{GOES} | collect", ["# job", "# ended", "# job", "# ended"], {Kind.UNCALLED}),
    ("one callback in a later job", f"{GOES} | collect |",
     ["# job", "# ended", "# job", "# ended", "cleanup 1 held undefined", "# cleaned 1", "# job", "# ended",
      "cleanup 2 held undefined", "# cleaned 2"], {Kind.SAME, Kind.RETAINED}),
    ("emptied, and no callback", f"{GOES} | collect; deref x w; say x",
     ["# job", "# ended", "# job", "# deref undefined", "say undefined", "# ended"],
     {Kind.SAME, Kind.UNCALLED}),
    ("emptied though a variable holds it", "new a; weakref w a | collect; deref b w",
     ["# job", "# ended", "# job", "# deref undefined", "# ended"], Broken.EMPTIED_LIVE),
    ("emptied in the job that keeps it", "new a; weakref w a; let a null; collect; deref b w",
     ["# job", "# deref undefined", "# ended"], Broken.EMPTIED_KEPT),
    ("given after it was emptied", "new a; weakref w a; let a null | collect; deref b w; deref b w",
     ["# job", "# ended", "# job", "# deref undefined", "# deref object 1", "# ended"], Broken.GIVEN_AGAIN),
    ("given, though what it leads to was emptied",
     "new a; new b; set a p b; weakref v a; weakref w b; let a null; let b null | collect; deref b w; deref a v",
     ["# job", "# ended", "# job", "# deref undefined", "# deref object 1", "# ended"], Broken.REACHED_EMPTIED),
    ("a callback for what a variable holds", "registry f c; new a; register f a n |",
     ["# job", "# ended", "cleanup 1 held undefined", "# cleaned 1", "# job", "# ended"], Broken.CLEANED_LIVE),
    ("a callback twice", f"{GOES} | collect",
     ["# job", "# ended", "# job", "# ended", "cleanup 1 held undefined", "# cleaned 1", "cleanup 1 held undefined",
      "# cleaned 1"], Broken.CLEANED_TWICE),
    ("a callback of what was unregistered", "registry f c; new a; register f a n a; unregister x f a; let a null; collect",
     ["# job", "# gave true", "# ended", "cleanup 1 held undefined", "# cleaned 1"], Broken.CLEANED_UNREGISTERED),
    ("a callback of nothing", "registry f c; collect",
     ["# job", "# ended", "cleanup 1 held undefined", "# cleaned 1"], Broken.CLEANED_UNKNOWN),
    ("a callback in the job that keeps its target", f"{DROPPED} |",
     [*IN_JOB, "# ended", "cleanup 1 held undefined", "# cleaned 1", "# job", "# ended"], Broken.CLEANED_KEPT),
    ("the same, where canaries show another collection", f"{DROPPED} |",
     [*IN_JOB, "# ended", "cleanup 1 held undefined", "# cleaned 1", "# collected", "# job", "# ended"], {Kind.EARLIER}),
    ("the same, where the collection was not complete", f"{DROPPED} |",
     [*IN_JOB, "# not complete", "# ended", "cleanup 1 held undefined", "# cleaned 1", "# job", "# ended"], {Kind.EARLIER}),
    ("given nothing in the next job, and no other collection came", f"{DROPPED} | deref b w",
     [*IN_JOB, "# ended", "# job", "# deref undefined", "# ended"], Broken.EMPTIED_KEPT),
    ("emptied in the next job, in which it was asked for", f"{DROPPED} | collect; deref b w",
     [*IN_JOB, "# ended", "# job", "# deref undefined", "# ended", "cleanup 1 held undefined", "# cleaned 1"], {Kind.SAME}),
    ("another held value", f"{GOES} | collect",
     ["# job", "# ended", "# job", "# ended", "cleanup 1 held 5", "# cleaned 1"], Broken.HELD_OTHER),
    ("a held value that nobody gave", f"{GOES} | collect",
     ["# job", "# ended", "# job", "# ended", "cleanup 0 held 5", "# cleaned 0"], Broken.HELD_OTHER),
    ("a callback within a job", f"{GOES} | collect; say x",
     ["# job", "# ended", "# job", "cleanup 1 held undefined", "# cleaned 1", "say undefined", "# ended"],
     Broken.CLEANED_INSIDE),
    ("a deref of another object", "new a; new b; weakref w a | deref c w",
     ["# job", "# ended", "# job", "# deref object 2", "# ended"], Broken.ANSWERED),
    ("an answer that nobody says", "new a; get b a p", ["# job", "# gave object 1", "# ended"], Broken.ANSWERED),
    ("a line that is another", "new a; say a", ["# job", "say object 2", "# ended"], Broken.ANSWERED),
    ("a line that is missing", "new a; say a", ["# job", "# ended"], Broken.ANSWERED),
    ("a line too many", "new a", ["# job", "say object 1", "# ended"], Broken.ANSWERED),
]


class Tests:
    """What passed, and what failed."""

    def __init__(self):
        self.passed, self.failed = 0, 0

    def check(self, holds, what):
        self.passed += bool(holds)
        self.failed += not holds
        if not holds:
            print(f"FAILED: {what}")


def plan_of(text):
    """A plan of one agent, whose jobs stand between bars, with a callback that does nothing."""
    jobs = [{"run": [words_of(part) for part in job.split(";") if part.strip()]} for job in text.split("|")]
    return {"version": 1, "agents": [{"name": "a", "callbacks": {"c": []}, "jobs": jobs}]}


def words_of(part):
    return [None if word == "null" else word for word in part.split()]


def classes(tests):
    """Answers that were written by hand."""
    for title, text, answer, wanted in ANSWERS:
        plan = rules.read_plan(json.dumps(plan_of(text)).encode())
        verdict = comparing.compare(plan, [answer])
        if isinstance(wanted, Broken):
            got = verdict.contradiction and verdict.contradiction.broken
        else:
            told = [line for line in verdict.lines if not (line.wanted or "").startswith(("emptied ", "end "))]
            got = None if verdict.contradiction else {line.kind for line in told}
        tests.check(got == wanted, f"{title}: wanted {wanted}, got {got}")


def older_edition(tests):
    """An engine that can't hold symbols weakly is followed by the rules of its edition."""
    plan = rules.read_plan(json.dumps(plan_of("symbol a; weakref w a; say w")).encode())
    answer = ["# job", "error TypeError: cannot be held weakly", "# ended"]
    kinds = comparing.compare(plan, [answer], symbols=False).counts()
    tests.check(kinds[Kind.EDITION] == 1 and not kinds[Kind.CONTRADICTION], f"an older edition: {kinds}")
    tests.check(comparing.compare(plan, [answer]).contradiction, "a symbol that can't be held weakly, in the 14th edition")


def reports(tests, program):
    """The stored reports are the program's, and those of the rules."""
    for path in corpus.paths_in([corpus.FOLDER]):
        with open(path, "rb") as file:
            text = file.read()
        with open(path.removesuffix(".json") + ".report", encoding="utf-8") as file:
            stored = file.read()
        ran = subprocess.run([program, "run", "--turns"], input=text, capture_output=True, check=False)
        same = ran.stdout.decode() == stored == rules.report(rules.read_plan(text))
        tests.check(same, f"the report of {path}")


def script(tests, *words):
    """A script of the folder, whose last line has its numbers."""
    ran = subprocess.run(words, capture_output=True, text=True, check=False)
    passed, _, failed, _ = ran.stdout.splitlines()[-1].split()
    tests.passed, tests.failed = tests.passed + int(passed), tests.failed + int(failed)
    for line in ran.stdout.splitlines()[:-1]:
        print(line)


def sound(tests, engine, program):
    """The corpus and random plans, of one agent, of several, and of version 3, are never contradicted."""
    rng, report = random.Random(SEED), session.reporter(program)
    drawn = drawing.draw(rng, RANDOM_PLANS, True, False) + drawing.draw(rng, WITH_AGENTS, False, True)
    drawn += drawing.draw(rng, OF_VERSION_3, True, False, about="atomics")
    plans = given.plans_in([corpus.FOLDER]) + [(f"random plan {at}", text) for at, text in enumerate(drawn)]
    for found in session.compare_all(engine, plans, report).found:
        fault = found.contradiction()
        tests.check(not fault and not found.misreported, f"{found.name}: {fault}: {found.text}")


def contradicted(engine, texts, rng, fault):
    """The comparison in which a fault is found, and the first plan that shows it. Plans are drawn as they are needed."""
    for start in range(0, MOST_PLANS, AT_ONCE):
        texts += drawing.draw(rng, AT_ONCE, True, False) if len(texts) == start else []
        plans = [(str(start + at), text) for at, text in enumerate(texts[start : start + AT_ONCE])]
        compared = session.compare_all(engine, plans, None, fault)
        if compared.contradicted():
            return compared, compared.contradicted()[0]
    return None, None


def planted(tests, engine):
    """Each planted fault is found within so many random plans, and called by its rule; one is shrunk."""
    texts, rng = [], random.Random(SEED)
    for fault, (broken, section, _) in FAULTS.items():
        compared, found = contradicted(engine, texts, rng, fault)
        wanted = [(rule.value[0], section or rule.value[1]) for rule in broken]
        got = found and found.contradiction()
        tests.check(got in wanted if wanted else bool(got), f"the fault {fault}: wanted {wanted or 'any'}, got {got}")
        if found and fault == "add":
            compared.shrink_all(1)
            agent = json.loads(found.shortest)["agents"][0]
            commands = sum(len(job["run"]) for job in agent["jobs"])
            tests.check(commands <= MOST_COMMANDS, f"the shortest plan of the fault {fault}: {found.shortest}")


def main():
    program, tests = os.path.abspath(sys.argv[1]), Tests()
    classes(tests)
    older_edition(tests)
    reports(tests, program)
    script(tests, os.path.join(ENGINES, "table"), "--check")
    try:
        engine = hosts.engine("node")
        sound(tests, engine, program)
        planted(tests, engine)
    except hosts.Missing as missing:
        print(f"skipped: {missing}")
    print(f"{tests.passed} passed, {tests.failed} failed")
    return 1 if tests.failed else 0


if __name__ == "__main__":
    sys.exit(main())
