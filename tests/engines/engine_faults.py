#!/usr/bin/env python3
"""How a comparison says that something is wrong: with its words, with the host, with an engine's answers; and that each
planted fault of engines/faults is found, by its rule, in few plans.

Usage: engine_faults.py. The words are tried on engine_of_rules.py, which stands for an engine. The faults are planted in
node, and where it is not installed they are skipped. Those of engines.py are tried there. Prints what fails, what was
skipped, and `N passed, M failed` last.
"""

import hashlib
import json
import os
import random
import re
import subprocess
import sys
import tempfile

TOP = os.path.dirname(os.path.dirname(os.path.dirname(os.path.abspath(__file__))))
ENGINES = os.path.join(TOP, "engines")
sys.path[:0] = [os.path.join(TOP, "tests", "lib"), os.path.join(ENGINES, "lib")]

import comparing
import drawing
import engines
import given
import hosts
import rules
import session
from engines import Tests
from verdicts import (
    ATOMICS, CLEAR, DEREF, ENQUEUE, EXCHANGING, MESSAGES, TRY, UNREGISTER, WEAKMAP, WEAKSET, NEVER_CALLED, NEVER_EMPTIED,
    Broken,
)

NONE = os.path.join(TOP, "tests", "engines", "engine_of_rules.py")  # the engine that is none
FEW = os.path.join(ENGINES, "corpus", "kept-alive")
# Each fault, with what it is found in, folders of the corpus or plans about one thing and how many, and the rules of
# which it breaks one first; of a rule that leaves the section open also the section.
FOUND = {
    "swapped": ("in-callbacks", [Broken.CLEANED_TWICE, Broken.CLEANED_LIVE]),
    "held": ("queue", [Broken.HELD_OTHER]),
    "primitives": ("registrations", [Broken.HELD_OTHER]),
    "cell": ("registrations", [Broken.EMPTIED_LIVE, Broken.HELD_OTHER]),
    "second": ("queue tokens registries:10", [Broken.EMPTIED_LIVE, (Broken.ANSWERED, UNREGISTER)]),
    "again": ("in-callbacks", [Broken.CLEANED_TWICE]),
    "inside": ("registrations", [Broken.CLEANED_INSIDE]),
    "batch": ("in-callbacks", [Broken.CLEANED_UNREGISTERED, (Broken.ANSWERED, UNREGISTER)]),
    "own-token": ("tokens", [Broken.CLEANED_UNREGISTERED]),
    "first-of-token": ("tokens", [Broken.CLEANED_UNREGISTERED, (Broken.ANSWERED, UNREGISTER)]),
    "all-tokens": ("registries:10", [(Broken.ANSWERED, UNREGISTER)]),
    "delete": ("maps", [(Broken.ANSWERED, WEAKMAP)]),
    "symbol": ("symbols", [Broken.EMPTIED_LIVE]),
    "two-maps": ("ephemerons", [(Broken.ANSWERED, WEAKMAP)]),
    "ninth": ("maps", [(Broken.ANSWERED, WEAKMAP)]),
    "values": ("ephemerons", [Broken.EMPTIED_LIVE, (Broken.ANSWERED, WEAKMAP)]),
    "ghost": ("maps own-keys ephemerons", [(Broken.ANSWERED, WEAKMAP)]),
    "shape": ("maps", [(Broken.ANSWERED, WEAKMAP)]),
    "members": ("sets", [(Broken.ANSWERED, WEAKSET)]),
    "all-lost": ("maps", [Broken.EMPTIED_LIVE, (Broken.ANSWERED, WEAKMAP)]),
    "other-target": ("deref", [(Broken.ANSWERED, DEREF)]),
    "clone": ("messages", [(Broken.ANSWERED, MESSAGES)]),
    "copied-block": ("messages", [(Broken.ANSWERED, ATOMICS)]),
    "thrown": ("caught", [Broken.EMPTIED_KEPT]),
    **dict.fromkeys(["sub", "exchange"], ("atomics", [(Broken.ANSWERED, EXCHANGING)])),
    **dict.fromkeys(["bits", "compare"], ("atomics", [(Broken.ANSWERED, ATOMICS)])),  # a later load shows it
}
# the same of what breaks no rule in any one plan, with what never happens
NEVER = {"never": ("deref cycles kept-alive", NEVER_EMPTIED), "no-calls": ("registrations queue in-callbacks", NEVER_CALLED)}
OF_THREADS = ["dropped", "doubled", "torn"]  # what tests/engines/engine_hosts.py looks for
# what engine_of_rules.py does where a refusal is caught, and what is said of it
CAUGHT = {
    "ends": 'say "TypeError: not an object" -> error TypeError', "clears": Broken.EMPTIED_KEPT.value[0],
    "assigns": 'say 3 -> say "TypeError', "leaves": f"-> say undefined ({Broken.ANSWERED.value[0]}; {TRY})",
}
# a plan of which a job has what engine_of_rules.py dies of, one that says true, and one with nothing of the kind
DIES = "new a; keys x"
TRUE = "new a; same x a a; say x"
PLAIN = "new a; say a"


def ran(script, *words, **variables):
    """A script of engines/ on the engine that is none: its status, and what it wrote."""
    environment = {**os.environ, "QJS": NONE, **variables}
    words = [os.path.join(ENGINES, script), *words]
    ended = subprocess.run(words, capture_output=True, text=True, env=environment, check=False)
    return ended.returncode, ended.stdout, ended.stderr


def write(folder, name, text):
    path = os.path.join(folder, name)
    with open(path, "w", encoding="utf-8") as file:
        file.write(text)
    return path


def plan_in(folder, name, text):
    return write(folder, name, json.dumps(engines.plan_of(text)))


def wrong_words(tests, folder):
    """What can't be used is told in one line, without a traceback and without a contradiction."""
    later = write(folder, "later.json", json.dumps({**engines.plan_of("collectlater"), "version": 2}))
    cases = [
        ("a fault that is not there", ["--fault", "nope"], "there is no fault nope; there are add, "),
        ("a path that is not there", ["/nonexistent"], "there is no /nonexistent"),
        ("a folder without plans", [os.path.join(ENGINES, "faults")], "there is no plan in "),
        ("a later collection", [later], "no engine can be asked for collectlater"),
        ("what is no plan", [write(folder, "none.json", "{}")], "refused S2"),
        ("a part that is none", ["--part", "3/2"], "3/2 is no part"),
        ("a thing that plans are not about", ["--about", "nothing"], "invalid choice"),
    ]
    for script in ("compare", "fuzz"):
        for title, words, told in cases if script == "compare" else [cases[0], cases[5]]:
            status, out, err = ran(script, "qjs", *words)
            right = status == 2 and out == "" and told in err and "Traceback" not in err
            tests.check(right, f"{script}, {title}: {status}: {out}{err}")
    status, out, err = ran("compare", "qjs", QJS=NONE, FAULT="silent")
    right = status == 2 and out == "" and err == "compare: qjs gave no answer to its first plan: this shell has no WeakRef\n"
    tests.check(right, f"a host that gives no answer: {status}: {out}{err}")
    for words, wanted in [([], 0), (["--required"], 2)]:
        status, out, _ = ran("compare", "d8", *words, D8="/nonexistent", PATH="/usr/bin:/bin")
        installed = not out.startswith("skipped: ")
        tests.check(installed or status == wanted, f"an engine that is not installed, {words}: {status}: {out}")


def statuses(tests, folder):
    """What an engine's answers come to, over all plans."""
    dies, true, plain = (plan_in(folder, f"{name}.json", text) for name, text in [("dies", DIES), ("true", TRUE), ("plain", PLAIN)])
    cases = [
        ("a sound engine, files after options", "", ["--table", FEW, "--no-shrink", plain], 0, "| contradiction | 0 | 0 |"),
        ("an engine that ends", "dies", ["--no-shrink", plain, dies, true], 3, "| no answer | 1 | 1 |"),
        ("the same, which is no contradiction", "dies", ["--table", dies, plain], 3, "| contradiction | 0 | 0 |"),
        ("the same, shrunk", "dies", [dies], 3, 'the shortest plan: {"version": 1'),
        ("a wrong engine", "wrong", [dies, true, plain], 1, "the engine answers otherwise, where no collection is concerned (SameValue)"),
        ("the same, not shrunk", "wrong", ["--no-shrink", true], 1, "the shortest plan: (not shrunk)"),
        ("an engine that is wrong once", "once", [true], 1, "it did not show again when the plan was run alone"),
        ("never emptied", "retains", [*places("deref cycles kept-alive")], 1, f"over the whole run: {NEVER_EMPTIED[0]}"),
        ("never called", "retains", [*places("registrations queue")], 1, f"over the whole run: {NEVER_CALLED[0]}"),
        ("not emptied in a few plans", "retains", [*places("weakrefs")], 0, "| retained |"),
        ("refusals that are caught", "", [*places("caught")], 0, "| contradiction | 0 | 0 |"),
        *((f"a caught refusal {fault}", fault, ["--no-shrink", *places("caught")], 1, told) for fault, told in CAUGHT.items()),
    ]
    for title, fault, words, wanted, told in cases:
        status, out, err = ran("compare", "qjs", *words, FAULT=fault, ONCE=os.path.join(folder, "once"))
        tests.check(status == wanted and told in out and err == "", f"{title}: {status}: {out[-600:]}{err}")
    tests.check(CLEAR in NEVER_EMPTIED and ENQUEUE in NEVER_CALLED, "the sections of what never happened")


def parts(tests, folder):
    """The parts of random plans are the whole, each once; files of fuzz are named by their plans."""
    def names(*words):
        out = ran("compare", "qjs", "--random", "30", "--about", "kept", "--no-shrink", *words, FAULT="retains")[1]
        return re.findall(r"^(plan \d+) .*retained", out, re.M)

    whole, some = names(), [*names("--part", "1/3"), *names("--part", "2/3"), *names("--part", "3/3")]
    tests.check(whole and sorted(whole) == sorted(some), f"the parts of random plans: {len(whole)} and {len(some)} lines")
    kept = os.path.join(folder, "kept")
    for number in ("1/2", "1/2", "2/2"):
        ran("fuzz", "qjs", "--seed", "5", "--minutes", "0.0001", "--no-shrink", "--part", number, "--keep", kept, FAULT="wrong")
    files = os.listdir(kept)
    for name in files:
        with open(os.path.join(kept, name), encoding="utf-8") as file:
            text = file.read().removesuffix("\n")
        tests.check(name == f"qjs-{hashlib.sha256(text.encode()).hexdigest()[:16]}.json", f"the name of {name}")
    firsts = [drawing.draw(random.Random(f"5 {number}"), session.AT_ONCE, True, False) for number in (1, 2)]
    tests.check(0 < len(files) <= len({*firsts[0], *firsts[1]}), f"{len(files)} files of two parts, one of them twice")


def steered(tests):
    """Plans about one thing are accepted, mostly go on to their ends, and have what they are about."""
    asked = {"kept": "deref", "ephemerons": "wmget", "registries": "register"}
    for about, word in asked.items():
        plans = drawing.draw(random.Random(1), 20, True, False, True, about)
        words = [command[0] for text in plans for run in drawing.runs_of(json.loads(text)["agents"][0]) for command in run]
        tests.check(words.count(word) > 100 or about == "kept" and words.count(word) > 60, f"plans about {about}: {words.count(word)} {word}")
        whole = sum("error " not in rules.report(rules.read_plan(text.encode())) for text in plans)
        tests.check(whole >= 5, f"plans about {about}: {whole} of 20 without an error")


def others_collections(tests):
    """What an agent dropped after its own collection another agent's may empty, and its callback then stands among the
    agent's lines. Of an agent alone it is a contradiction, where canaries show no other collection."""
    alone = engines.plan_of("registry f c; new x; register f x n; collect; let x null")
    other = {**engines.plan_of("collect")["agents"][0], "name": "b"}
    called = ["# job", "# ended", "cleanup 1 held undefined", "# cleaned 1"]
    for agents, wanted in [(alone["agents"], Broken.CLEANED_LIVE), ([*alone["agents"], other], None)]:
        plan = rules.read_plan(json.dumps({"version": 1, "agents": agents}).encode())
        found = comparing.compare(plan, [called, ["# job", "# ended"]][: len(agents)]).contradiction
        tests.check((found and found.broken) == wanted, f"a callback of what was dropped, {len(agents)} agents: {found}")


def places(found_in):
    """The folders of the corpus of these names."""
    return [os.path.join(ENGINES, "corpus", name) for name in found_in.split() if ":" not in name]


def plans_for(found_in):
    texts = [text for _, text in given.plans_in(places(found_in))]
    for about, count in re.findall(r"(\w+):(\d+)", found_in):
        texts += drawing.draw(random.Random(1), int(count), True, False, True, about)
    return [(str(at), text) for at, text in enumerate(texts)]


def rule_of(broken):
    return (broken[0].value[0], broken[1]) if isinstance(broken, tuple) else broken.value


def planted(tests, engine):
    """Each fault is found where it is looked for, and called by one of its rules; each file is one of them."""
    for fault, (found_in, broken) in FOUND.items():
        found = session.compare_all(engine, plans_for(found_in), None, fault).contradicted()
        got, wanted = {one.contradiction() for one in found[:1]}, {rule_of(rule) for rule in broken}
        tests.check(got and got <= wanted, f"the fault {fault}: wanted one of {wanted}, got {got}")
    for fault, (found_in, wanted) in NEVER.items():
        got = [*session.compare_all(engine, plans_for(found_in), None, fault).never()]
        tests.check(wanted in [one[:2] for one in got], f"the fault {fault}: wanted {wanted}, got {got}")
    tried = {*FOUND, *NEVER, *engines.FAULTS, *OF_THREADS}
    tests.check(tried >= {*given.faults()}, f"these faults are tried nowhere: {sorted({*given.faults()} - tried)}")


def documented_host(tests):
    """The host that docs/HOSTS.md has runs as it stands there, on the shell that it is for."""
    try:
        engine = hosts.engine("jsc")
    except hosts.Missing as missing:
        print(f"skipped: {missing}")
        return
    with open(os.path.join(TOP, "docs", "HOSTS.md"), encoding="utf-8") as file:
        script = re.search(r"^```js\n(.*?)^```$", file.read(), re.S | re.M)[1]
    with tempfile.TemporaryDirectory() as folder:
        words = [engine.command, hosts.PLAN, write(folder, "host.js", script)]
        plan = json.dumps(engines.plan_of(TRUE))
        said = subprocess.run(words, input=plan + "\n", capture_output=True, text=True, check=False).stdout
    tests.check(said == '{"agents":[["# job","# gave true","say true","# ended"]]}\n', f"the host of the document: {said}")


def main():
    tests = Tests()
    with tempfile.TemporaryDirectory() as folder:
        wrong_words(tests, folder)
        statuses(tests, folder)
        parts(tests, folder)
    steered(tests)
    others_collections(tests)
    documented_host(tests)
    try:
        planted(tests, hosts.engine("node"))
    except hosts.Missing as missing:
        print(f"skipped: {missing}")
    print(f"{tests.passed} passed, {tests.failed} failed")
    return 1 if tests.failed else 0


if __name__ == "__main__":
    sys.exit(main())
