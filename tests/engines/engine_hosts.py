#!/usr/bin/env python3
"""What stands around the comparison of engines: exported tests, hosts, and agents as threads.

Exported tests have the form of test262, list the features that they use, pass on node, and fail with each planted fault
wherever the comparison of their plans contradicts it. What is not installed is skipped by name.

Usage: engine_hosts.py PROGRAM. Prints what fails, what was skipped, and `N passed, M failed` last.
"""

import json
import os
import random
import re
import shutil
import subprocess
import sys
import tempfile

TOP = os.path.dirname(os.path.dirname(os.path.dirname(os.path.abspath(__file__))))
sys.path[:0] = [os.path.join(TOP, "tests", "lib"), os.path.join(TOP, "engines", "lib")]

import answering
import comparing
import drawing
import engine_faults
import engines
import given
import hosts
import interleaving
import orders
import rules
import session

THREADS, SUITE = os.path.join(engines.ENGINES, "threads"), os.path.join(engines.ENGINES, "suite")
COMPARE, CORPUS = os.path.join(engines.ENGINES, "compare"), os.path.join(engines.ENGINES, "corpus")
EXPORT, RUNNER = os.path.join(engines.ENGINES, "export"), os.path.join(engines.ENGINES, "runner.mjs")
# each fault with the folders of the corpus whose tests speak of it; of those that the tests of comparisons have, without
# what needs several agents or a caught refusal, or counts what was done in the plans before
COUNTING = {"again", "all-lost", "clone", "copied-block", "held", "other-target", "second", "swapped", "thrown"}
SHOWN = {fault: shown for fault, (_, _, shown) in engines.FAULTS.items()} | {"all-lost": "ephemerons"}
SHOWN |= {fault: where for fault, (where, _) in engine_faults.FOUND.items() if fault not in COUNTING and ":" not in where}
ADD = ["add", "x", "b", 0, 1]
# commands of two agents on the words of one block, at once: what a and b gave, and whether some order explains it
AT_ONCE = [
    ("two adds", [ADD], [ADD], [([0], [1], True), ([1], [0], True), ([0], [0], False), ([1], [1], False)]),
    ("each stores, and loads what the other stores", [["store", "b", 0, 1], ["load", "x", "b", 1]],
     [["store", "b", 1, 1], ["load", "x", "b", 0]],
     [([0], [1], True), ([1], [0], True), ([1], [1], True), ([0], [0], False)]),
    ("half a word", [["store", "b", 0, 4294967295]], [["load", "x", "b", 0]],
     [([], [0], True), ([], [4294967295], True), ([], [65535], False), ([], [4294901760], False)]),
    ("a second store before the first", [["store", "b", 0, 1], ["store", "b", 0, 2]],
     [["load", "x", "b", 0], ["load", "x", "b", 0]],
     [([], [1, 2], True), ([], [0, 2], True), ([], [2, 1], False), ([], [1, 0], False)]),
]
# turns: a opens the block and posts it, b takes it and adds, and then a adds
B_ADDS_FIRST = [[0, 1, 0], [0, 1, 1], [0, 1, 2], [0, 2, 0], [1, 1, 0], [1, 1, 1], [0, 2, 1], [0, 3, 0], [1, 2, 0]]
# what an engine may lack, and the commands that need it
LACKING = {
    "Atomics": {*rules.ON_WORDS}, "SharedArrayBuffer": {"buffer"},
    "FinalizationRegistry": {"registry", "register", "unregister"},
}
WITHOUT_STATUS = ["jsc"]  # the shell's `quit` takes no status
# what conforming tests do not look at: a comparison tells by its canaries that nothing was collected after a job; and it
# waits for callbacks of what was refused to be registered
NOT_CONFORMING = {"kept-alive-dropped-weakref-callback.js", "tokens-number-token.js"}
HEADER = """\
// Copyright (C) 2026 The Puigend developers. All rights reserved.
// This code is governed by the BSD license found in the LICENSE file.
/*---
esid: sec-"""
# what a text has that uses a feature
FEATURES = {
    "WeakRef": r"\bWeakRef\b", "WeakMap": r"\bWeakMap\b", "WeakSet": r"\bWeakSet\b", "Atomics": r"\bAtomics\b",
    "FinalizationRegistry": r"\bFinalizationRegistry\b|trackedRegistry", "Symbol": r"\bSymbol\b",
    "SharedArrayBuffer": r"\bSharedArrayBuffer\b", "TypedArray": r"\bUint32Array\b", "host-gc-required": r"\$262\.gc\b",
}
HARNESS_FILES = {
    "asyncHelpers.js": r"\basyncTest\(",
    "gcJobs.js": r"\b(callbacksOf|cameCallback|expectCallbacks|isRefused|job|named|nameOf|newName|observe"
                 r"|trackedRegistry)\(",
}
# a and b have one target: what a gives is kept alive to the end of the job, so that b must give it too
TWO_WEAKREFS = [
    [["new", "a"], ["weakref", "v", "a"], ["weakref", "w", "a"], ["let", "a", None]],
    [["deref", "b", "v"], ["let", "b", None], ["let", "v", None], ["collect"], ["deref", "b", "w"], ["say", "b"]],
]

# a block with a property that leads to itself goes to another agent without its properties
CYCLIC = {"version": 1, "agents": [
    {"name": "a", "callbacks": {}, "jobs": [{"run": [["buffer", "b", 1], ["set", "b", "p", "b"], ["post", "b", "b"]]}]},
    {"name": "b", "callbacks": {}, "jobs": [{"on": ["a", "x"], "run": [["keys", "x"], ["get", "y", "x", "p"]]}]},
]}


def run(*words, **more):
    return subprocess.run(words, capture_output=True, text=True, check=False, **more)


def one_agent(jobs):
    return {"version": 1, "agents": [{"name": "a", "callbacks": {}, "jobs": [{"run": job} for job in jobs]}]}


def write(folder, name, text):
    path = os.path.join(folder, name)
    with open(path, "w", encoding="utf-8") as file:
        file.write(text)
    return path


def files_in(folder):
    return sorted(os.path.join(place, name) for place, _, names in os.walk(folder) for name in names)


def export_words(tests, folder):
    """Wrong words and plans are told in a line, and nothing is written."""
    refused = write(folder, "refused.json", '{"version": 1, "agents": [{"name": "a", "jobs": []}]}')
    out = folder + "/x"
    for words, said in [([], "usage:"), ([out, refused], "refused S2"), ([out, folder + "/none"], "no plan is there")]:
        ran = run(EXPORT, *words, cwd=folder)
        right = ran.returncode == 2 and said in ran.stderr and "Traceback" not in ran.stderr
        tests.check(right and not os.path.exists(out), f"export {words}: {ran.returncode} {ran.stderr}")
    ran = run(EXPORT, "--help", cwd=folder)
    right = ran.returncode == 0 and "FOLDER/offer" in ran.stdout
    tests.check(right and not os.path.exists(os.path.join(folder, "--help")), f"export --help: {ran}")


def form(tests, path):
    """A test has the header, and lists the features and the harness files that it uses, and no others."""
    with open(path, encoding="utf-8") as file:
        text = file.read()
    front, _, body = text.partition("---*/")
    listed = {key: re.findall(r"[\w.-]+", names) for key, names in re.findall(r"^(\w+): \[(.*)\]$", front, re.MULTILINE)}
    used = {feature for feature, pattern in FEATURES.items() if re.search(pattern, body)}
    included = [name for name, pattern in HARNESS_FILES.items() if re.search(pattern, body)]
    features = set(listed.get("features", ())) - {"symbols-as-weakmap-keys"}
    tests.check(text.startswith(HEADER), f"{path}: the header")
    tests.check(features == used, f"{path}: lists {features}, and uses {used}")
    tests.check(listed.get("includes", []) == included, f"{path}: includes {listed.get('includes')}, and uses {included}")
    is_async = "$262.gc" in body
    tests.check(listed.get("flags", []) == ["async"] * is_async and ("await" in body) == is_async, f"{path}: flags")


def exported_forms(tests, folder):
    """What was exported: its places, and the form of each test."""
    offered = files_in(os.path.join(folder, "offer", "test", "built-ins"))
    for mode in ("conforming", "complete"):
        for path in files_in(os.path.join(folder, mode)):
            form(tests, path)
    tests.check(len(offered) > 75, f"{len(offered)} tests to offer")
    for path in offered:
        with open(path, encoding="utf-8") as file, open(path.replace("offer/test", "conforming"), encoding="utf-8") as other:
            tests.check(file.read() == other.read(), f"{path} is the conforming test")
    helpers = [name for name in os.listdir(os.path.join(folder, "offer", "test", "harness")) if name.startswith("gcJobs-")]
    tests.check(len(helpers) == 4, f"tests of the harness file: {helpers}")


def is_of(path, groups):
    return any(os.path.basename(path).startswith(f"{group}-") for group in groups)


def name_in_export(plan):
    """The name of the test of a plan of the corpus."""
    return "-".join(plan.removesuffix(".json").split("/")[-2:]) + ".js"


def failing(engine, fault, paths):
    """Those of the tests that fail with a fault."""
    ran = run(*runner_words(engine), "--fault", fault, *paths)
    lines = [line for line in ran.stdout.splitlines() if line.startswith("not ok ")]
    return {line.removeprefix("not ok ").partition(": ")[0] for line in lines}


def runner_words(engine):
    return [engine.command, "--expose-gc", "--single-threaded", "--single-threaded-gc", RUNNER]


def exported_faults(tests, engine, folder):
    """Wherever the comparison contradicts the plan of a test, the test fails with the fault."""
    modes = tuple(os.path.join(folder, mode) for mode in ("conforming", "complete"))
    for fault, groups in SHOWN.items():
        plans = given.plans_in(engine_faults.places(groups))
        contradicted = session.compare_all(engine, plans, None, fault).contradicted()
        wanted = {name_in_export(found.name) for found in contradicted}
        of_groups = [path for path in files_in(folder) if path.startswith(modes) and is_of(path, groups.split())]
        failed = failing(engine, fault, of_groups)
        for mode in ("conforming", "complete"):
            paths = [path for path in of_groups if path.startswith(os.path.join(folder, mode))]
            of_mode = wanted & {os.path.basename(path) for path in paths}
            of_mode -= NOT_CONFORMING if mode == "conforming" else set()
            got = {os.path.basename(path) for path in failed & set(paths)}
            tests.check(of_mode <= got, f"{mode} tests with the fault {fault}: {of_mode - got} pass")
            tests.check(got or mode == "complete" and not of_mode, f"{mode} tests with the fault {fault}: none fails")
            if fault == "all-lost":
                tests.check(len(got) > 18, f"{mode} tests of ephemerons of which all is lost: only {len(got)} fail")


def settled_together(tests, engine, folder):
    """If one WeakRef gave a target, another one must give it, though each may give nothing."""
    plan = write(folder, "two.json", json.dumps(one_agent(TWO_WEAKREFS)))
    run(EXPORT, os.path.join(folder, "two"), plan)
    path = files_in(os.path.join(folder, "two", "conforming"))
    tests.check(run(*runner_words(engine), *path).returncode == 0, "one target of two WeakRefs")
    # V8 then clears KeptAlive within the job: without what the two settle together either may give nothing.
    tests.check(len(failing(engine, "kept", path)) == 1, "one target of two WeakRefs, with the fault kept")


def exports(tests, engine):
    with tempfile.TemporaryDirectory() as folder:
        export_words(tests, folder)
        out = os.path.join(folder, "out")
        run(EXPORT, out)
        exported_forms(tests, out)
        if engine:
            places = ("conforming", "complete", os.path.join("offer", "test", "harness"))
            engines.script(tests, *runner_words(engine), *(os.path.join(out, place) for place in places))
            exported_faults(tests, engine, out)
            settled_together(tests, engine, folder)


def features(tests, engine, folder):
    """Plans that need what an engine lacks are skipped by its name, and the others are not contradicted."""
    plans = given.plans_in(engine_faults.places("atomics blocks messages registrations"))
    texts = [text for _, text in plans]
    for name, words in LACKING.items():
        script = write(folder, "lacks.js", f"delete globalThis.{name};")
        for (plan, text), answer in zip(plans, answering.answers(engine, texts, [script])):
            runs = [run for agent in json.loads(text)["agents"] for run in drawing.runs_of(agent)]
            if words & {command[0] for run in runs for command in run}:
                tests.check(answer == {"skipped": f"no {name}"}, f"{plan} without {name}: {answer}")
            else:
                verdict = comparing.compare(rules.read_plan(text.encode()), answer["agents"])
                tests.check(not verdict.contradiction, f"{plan} without {name}: {verdict.contradiction}")


def shared(first, second):
    """A plan of two agents with one block, each with commands on its words."""
    opens = {"run": [["buffer", "b", 2], ["post", "b", "b"]]}
    agents = [[opens, {"run": first}], [{"on": ["a", "b"], "run": second}]]
    plan = {"version": 1, "agents": [{"name": name, "callbacks": {}, "jobs": jobs} for name, jobs in zip("ab", agents)]}
    return rules.read_plan(json.dumps(plan).encode())


def gave(words):
    return ["# job", *(f"# gave {word}" for word in words), "# ended"]


def orders_by_hand(tests):
    """What an order explains, and what none does; what is not decided within the bound; and turns that were given."""
    for title, first, second, answers in AT_ONCE:
        for a_gave, b_gave, wanted in answers:
            answer = [["# job", "# ended", *gave(a_gave)], gave(b_gave)]
            explained, why = orders.explain(shared(first, second), answer)
            tests.check((explained, why) == (wanted, None), f"{title}, {a_gave} and {b_gave}: {explained}, {why}")
    most, orders.MOST_TRIED = orders.MOST_TRIED, 1
    title, first, second, answers = AT_ONCE[-1]
    undecided = orders.explain(shared(first, second), [["# job", "# ended", *gave([])], gave(answers[0][1])])
    orders.MOST_TRIED = most
    tests.check(undecided == (None, None), f"{title}, with one moment to be tried: {undecided}")
    lost = orders.explain(shared([], []), [["# job", "# ended", "# job", "# ended"], ["# job", "# ended", "# job"]])
    tests.check(lost[0] is False and lost[1], f"a line too many: {lost}")
    for wanted, gives in [(True, ([1], [0])), (False, ([0], [1])), (False, ([0], [0]))]:
        answer = [["# job", "# ended", *gave(gives[0])], gave(gives[1])]
        found = interleaving.contradiction(shared([ADD], [ADD]), answer, B_ADDS_FIRST)
        tests.check((found is None) == wanted, f"b adds first, {gives}: {found and found.broken}")


def threads(tests, folder):
    """Agents as threads: nothing is contradicted, by turns of a command or at once; each fault of threads is found."""
    for turns in ("command", "none"):
        for words in ([], ["--random", "24"]):
            ran = run(THREADS, "--turns", turns, *words)
            right = ran.returncode == 0 and "contradiction" not in ran.stdout and "not decided" not in ran.stdout
            tests.check(right, f"threads --turns {turns} {words}: {ran.returncode}: {ran.stdout}{ran.stderr}")
    for fault in ("clone", "dropped", "doubled", "torn"):
        ran = run(THREADS, "--fault", fault, "--random", "12", "--no-shrink")
        right = ran.returncode == 1 and "contradiction" in ran.stdout
        tests.check(right, f"threads --fault {fault}: {ran.stdout}{ran.stderr}")
    recorded(tests, folder)
    ran = run(THREADS, folder + "/nowhere")
    tests.check(ran.returncode == 2 and "Traceback" not in ran.stderr, f"threads of a place that is none: {ran.stderr}")
    texts = drawing.draw(random.Random(engines.SEED), 12, False, True)
    plans = given.plans_in(engine_faults.places("agents messages blocks"))
    plans += [(f"random plan {at}", text) for at, text in enumerate(texts)]
    for found in session.compare_all(hosts.engine("workers"), plans, None).found:
        right = found.verdict and not found.contradiction()
        tests.check(right, f"{found.name}, in threads: {found.trouble()}: {found.text}")


def recorded(tests, folder):
    """What `threads --json` and `compare --json` print becomes rows of two tables."""
    files = []
    for words in ([THREADS, "--random", "2"], [THREADS, "--random", "3"], [COMPARE, "node", "--random", "4"]):
        files.append(write(folder, f"{len(files)}.json", run(*words, "--json").stdout))
    for name in ("engines", "docs"):
        os.mkdir(os.path.join(folder, name))
    record = shutil.copy(os.path.join(engines.ENGINES, "record"), os.path.join(folder, "engines"))
    page = write(os.path.join(folder, "docs"), "COMPARING.md", "a\n<!-- made by engines/record -->\nb\n<!-- end -->\nc\n")
    ran = run(record, *files)
    with open(page, encoding="utf-8") as file:
        text = file.read()
    right = ran.returncode == 0 and text.startswith("a\n<!-- ") and text.endswith(" -->\nc\n") and "\nb\n" not in text
    tests.check(right and re.search(r"^\| node [^|]*\| random \| 4 \| 0 \|", text, re.MULTILINE), f"record: {ran}: {text}")
    wanted = r"^\| node [^|]*, by turns of a command \| random \| 5 \| 0 \| 5 \| 0 \| 0 \| 0 \|"
    tests.check(re.search(wanted, text, re.MULTILINE), f"record, rows of threads: {text}")


def agents_of_jsc(tests, folder):
    """Plans of several agents on the agents of JavaScriptCore's shell: nothing is contradicted, a torn word is found."""
    cyclic = write(folder, "cyclic.json", json.dumps(CYCLIC))
    for turns in ("command", "none"):
        for places in ([], [cyclic]):
            ran = run(THREADS, "--engine", "jsc-agents", "--turns", turns, *places)
            right = ran.returncode == 0 and "contradiction" not in ran.stdout and "not decided" not in ran.stdout
            tests.check(right, f"jsc-agents --turns {turns} {places}: {ran.returncode}: {ran.stdout}{ran.stderr}")
    ran = run(THREADS, "--engine", "jsc-agents", "--fault", "torn", "--random", "12", "--no-shrink")
    tests.check(ran.returncode == 1 and "Atomics.load" in ran.stdout, f"jsc-agents, a torn word: {ran.stdout}{ran.stderr}")
    ran = run(COMPARE, "jsc-agents", os.path.join(CORPUS, "messages"), "--table")
    tests.check(ran.returncode == 0, f"compare jsc-agents: {ran.returncode}: {ran.stdout}{ran.stderr}")


def suites(tests, name, folder, environment=None):
    """Exported tests in a shell: they pass, whatever harness is named, and fail with a fault that they speak of."""
    run(EXPORT, os.path.join(folder, "tests"), os.path.join(CORPUS, "ephemerons"))
    paths = [path for path in files_in(os.path.join(folder, "tests", "conforming")) if "symbol" not in path][::2]
    harness = tempfile.mkdtemp(dir=folder)
    shutil.copy(os.path.join(engines.ENGINES, "harness", "stand-in", "assert.js"), harness)
    ran = run(SUITE, name, "--harness", harness, *paths[:2], env=environment)
    tests.check(ran.returncode == 2 and "sta.js" in ran.stderr, f"suite without sta.js: {ran.returncode}: {ran.stderr}")
    write(harness, "sta.js", "globalThis.hasSta = true;")
    looks = write(folder, "looks.js", "assert.sameValue(hasSta, true);")
    ran = run(SUITE, name, "--harness", harness, *paths, looks, env=environment)
    right = ran.returncode == 0 and ran.stdout == f"{len(paths) + 1} passed, 0 failed\n" and len(paths) > 10
    tests.check(right, f"suite: {ran.stdout}{ran.stderr}")
    ran = run(SUITE, name, "--fault", "all-lost", *paths, looks, env=environment)
    failed = ran.stdout.count("not ok ")
    tests.check(ran.returncode == 1 and failed > 8, f"suite --fault all-lost, {failed} fail: {ran.stdout}{ran.stderr}")
    tests.check("looks.js" in ran.stdout, f"suite, a test that throws: {ran.stdout}")
    ran = run(SUITE, name, folder + "/nowhere", env=environment)
    tests.check(ran.returncode == 2 and "Traceback" not in ran.stderr, f"suite of a place that is none: {ran.stderr}")


def spidermonkey(tests, js, folder):
    """SpiderMonkey with collections that go by slices between the commands: nothing is contradicted, and they are seen.
    Its own shell, which Debian names js102, takes plans with messages besides, and exported tests."""
    own = shutil.which("js102")
    for command in filter(None, [js.command, own]):
        environment = {**os.environ, "JS": command}
        ran = run(COMPARE, "js", "--stress", "--random", "40", "--table", "--no-shrink", env=environment)
        seen = re.search(r"^([1-9]\d*) times canaries showed a collection", ran.stdout, re.MULTILINE)
        tests.check(ran.returncode == 0 and seen, f"{command} --stress: {ran.returncode}: {ran.stdout}{ran.stderr}")
    if not own:
        print("skipped: js102 is not installed")
        return
    environment = {**os.environ, "JS": own}
    suites(tests, "js", folder, environment)
    ran = run(COMPARE, "js", *engine_faults.places("messages registrations"), "--table", env=environment)
    right = ran.returncode == 0 and "skipped" not in ran.stdout
    tests.check(right, f"js102: {ran.returncode}: {ran.stdout}{ran.stderr}")


def failed_hosts(tests, engine, folder):
    """A host that can't run the interpreter, or ends, is told of with what it wrote on standard error."""
    old = write(folder, "old.js", "delete globalThis.WeakRef;")
    answer = answering.answers(engine, [answering.PROBE], [old])[0]
    tests.check(re.search("WeakRef|Plans", answer.get("none", "")), f"{engine.name}, an engine without WeakRef: {answer}")
    if engine.name == "workers":
        return  # no promise of the interpreter is kept by its main thread
    fails = write(folder, "fails.js", "JSON.stringify = () => { throw new Error('nothing can be told'); };")
    ran = run(*engine.words_with([fails]), input=answering.PROBE + "\n")
    ended = ran.returncode != 0 or engine.name in WITHOUT_STATUS
    right = ran.stdout == "" and "nothing can be told" in ran.stderr and ended
    tests.check(right, f"{engine.name}, a promise that fails: {ran.returncode}: {ran.stdout}{ran.stderr[-300:]}")


def found_engine(name):
    try:
        return hosts.engine(name)
    except hosts.Missing as missing:
        print(f"skipped: {missing}")
        return None


def main():
    tests = engines.Tests()
    node = found_engine("node")
    exports(tests, node)
    orders_by_hand(tests)
    with tempfile.TemporaryDirectory() as folder:
        for engine in filter(None, [node, *map(found_engine, ("workers", "jsc", "js", "gjs"))]):
            failed_hosts(tests, engine, folder)
            if engine.name in ("jsc", "js"):
                suites(tests, engine.name, folder)
            if engine.name == "jsc":
                agents_of_jsc(tests, folder)
            if engine.name == "js":
                spidermonkey(tests, engine, folder)
        if node:
            features(tests, node, folder)
            threads(tests, folder)
    print(f"{tests.passed} passed, {tests.failed} failed")
    return 1 if tests.failed else 0


if __name__ == "__main__":
    sys.exit(main())
