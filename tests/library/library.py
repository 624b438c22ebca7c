#!/usr/bin/env python3
"""The C library beside the program, by turns: the same statuses and the same bytes, from the C program embed/run.c and
from the Python module embed/clusterrun.py, which keep the answer, and from a call with a buffer. All examples; texts with faults; buffers that are too small; random plans;
traces; several threads at once; and how long a plan of 60,000 commands takes.

Usage: library.py PROGRAM FOLDER COUNT SEED. FOLDER has libclusterrun.so and `run`, which is embed/run.c; COUNT is how
many random plans there are. Prints each answer that differs, and `N passed, M failed` last.
"""

import ctypes
import glob
import json
import os
import random
import subprocess
import sys
import tempfile
import threading
import time

TOP = os.path.dirname(os.path.dirname(os.path.dirname(os.path.abspath(__file__))))
sys.path.insert(0, os.path.join(TOP, "tests", "lib"))

import refused_texts

PROGRAM, FOLDER = os.path.abspath(sys.argv[1]), os.path.abspath(sys.argv[2])
os.environ["CLUSTERRUN_LIBRARY"] = os.path.join(FOLDER, "libclusterrun.so")
sys.path.insert(0, os.path.join(TOP, "embed"))
import clusterrun
import third_plans

LIBRARY = ctypes.CDLL(os.environ["CLUSTERRUN_LIBRARY"])

EXAMPLES = sorted(glob.glob(os.path.join(TOP, "examples", "*.json")))
OK = b"ok\n"


def by_program(checks, plan):
    """What the program answers: its status, its report and its complaint, without what a plan is warned of, which the
    library does not tell."""
    words = ["check"] if checks else ["run", "--turns"]
    ran = subprocess.run([PROGRAM, *words], input=plan, capture_output=True, timeout=60, check=False)
    lines = ran.stderr.splitlines(keepends=True)
    return ran.returncode, ran.stdout, b"".join(line for line in lines if not line.startswith(b"warning "))


def by_c(checks, plan):
    """What the C program answers."""
    with tempfile.NamedTemporaryFile() as file:
        file.write(plan)
        file.flush()
        words = ["--check"] * checks + [file.name]
        ran = subprocess.run([os.path.join(FOLDER, "run"), *words], capture_output=True, timeout=60, check=False)
    return ran.returncode, ran.stdout, ran.stderr


def by_python(checks, plan):
    """What the Python module answers, as the program would."""
    try:
        if not checks:
            return 0, clusterrun.run(plan), b""
        clusterrun.check(plan)
        return 0, OK, b""
    except clusterrun.Refused as refused:
        return 1, b"", f"{refused}\n".encode()
    except MemoryError:
        return 3, b"", b"out of memory\n"


def by_buffer(checks, plan, room):
    """What a call answers with so many bytes of room, and another where that was too little."""
    call = LIBRARY.clusterrun_check if checks else LIBRARY.clusterrun_run
    length = ctypes.c_size_t(0)
    out = ctypes.create_string_buffer(b"." * room, room + 1)
    status = call(plan, ctypes.c_size_t(len(plan)), out, ctypes.c_size_t(room), ctypes.byref(length))
    if length.value > room:
        again = by_buffer(checks, plan, length.value)
        text = again[1] if status == 0 else again[2]
        same = again[0] == status and text.startswith(out.raw[:room])
        return again if same else (again, "with less room", status, out.raw[:room])
    text = out.raw[: length.value]
    if out.raw[length.value : room] != b"." * (room - length.value):
        return "behind the text there is", out.raw
    return (0, text, b"") if status == 0 else (status, b"", text + b"\n")


def example_plans():
    """Each example, whose report stands beside it."""
    for path in EXAMPLES:
        with open(path, "rb") as file:
            plan = file.read()
        with open(path.removesuffix(".json") + ".report", "rb") as file:
            report = file.read()
        for checks in (False, True):
            wanted = 0, OK if checks else report, b""
            yield wanted, by_program(checks, plan), f"the program, {path}"
            yield wanted, by_c(checks, plan), f"C, {path}"
            for room in (0, 1, len(report) - 1, len(report), len(report) + 1):
                yield wanted, by_buffer(checks, plan, room), f"room for {room}, {path}"
            yield wanted, by_python(checks, plan), f"Python, {path}"


def refused_plans():
    """The texts of tests/rows/refusals: all by Python, and each fortieth by C, run and checked."""
    texts = [text for source in (refused_texts.tables, refused_texts.unwritten, refused_texts.many_callbacks) for text in source()]
    for number, (text, answer) in enumerate(texts):
        wanted = (0, OK, b"") if answer == "ok" else (1, b"", f"{answer}\n".encode())
        yield wanted, by_python(True, text), f"Python, {text[:200]!r}"
        if number % 40 == 0:
            yield wanted, by_c(True, text), f"C, {text[:200]!r}"
        if answer != "ok":
            yield wanted, by_python(False, text), f"Python runs {text[:200]!r}"
            yield wanted, by_buffer(False, text, number % 12), f"room for {number % 12}, {text[:200]!r}"


def random_texts(count, seed):
    """Random plans, whole and spoiled: whatever the program answers."""
    rng = random.Random(seed)
    for number in range(count):
        plan = third_plans.text_of_any(rng)
        wanted = by_program(False, plan)
        yield wanted, by_python(False, plan), f"Python, plan {number} of seed {seed}: {plan!r}"
        yield wanted, by_buffer(False, plan, number % 200), f"room for {number % 200}, plan {number} of seed {seed}: {plan!r}"
        if number % 20 == 0:
            yield by_program(True, plan), by_python(True, plan), f"Python checks plan {number} of seed {seed}: {plan!r}"
            yield wanted, by_c(False, plan), f"C, plan {number} of seed {seed}: {plan!r}"


def by_module(every, plan):
    """The trace that the Python module gives, as the program would."""
    try:
        return 0, clusterrun.trace(plan, every), b""
    except clusterrun.Refused as refused:
        return 1, b"", f"{refused}\n".encode()


def traces(count, seed):
    """The traces of all examples and of some random plans: what the program writes."""
    rng = random.Random(seed)
    plans = [(f"plan {number} of seed {seed}", third_plans.text_of_any(rng)) for number in range(count // 4)]
    for path in EXAMPLES:
        with open(path, "rb") as file:
            plans.append((path, file.read()))
    for name, plan in plans:
        for every in (False, True):
            words = [PROGRAM, "trace", "--json"] + ["--all"] * every
            ran = subprocess.run(words, input=plan, capture_output=True, timeout=60, check=False)
            wanted = ran.returncode, ran.stdout, ran.stderr
            yield wanted, by_module(every, plan), f"the trace, every {every}, {name}: {plan[:200]!r}"


def at_once():
    """Four threads, each with all examples, thirty times."""
    wrong = []

    def work():
        for _ in range(30):
            for path in EXAMPLES:
                with open(path, "rb") as file:
                    plan = file.read()
                with open(path.removesuffix(".json") + ".report", "rb") as file:
                    if clusterrun.run(plan) != file.read():
                        wrong.append(path)

    threads = [threading.Thread(target=work) for _ in range(4)]
    for thread in threads:
        thread.start()
    for thread in threads:
        thread.join()
    yield [], wrong, "four threads at once"


def long_plan():
    """60,000 commands take the C program no longer than the program, the best of fifteen runs each. Other work may run
    beside, so only what is half as long again fails."""
    commands = [["new", "a"], ["copy", "b", "a"], ["set", "a", "k", "b"], ["get", "c", "a", "k"]] * 2_500
    agent = {"name": "a", "callbacks": {}, "jobs": [{"run": commands}] * 6}
    plan = json.dumps({"version": 1, "agents": [agent]}).encode()
    with tempfile.NamedTemporaryFile() as file:
        file.write(plan)
        file.flush()
        best = {}
        for _ in range(15):
            for name, words in (("C", [os.path.join(FOLDER, "run")]), ("program", [PROGRAM, "run", "--turns"])):
                begun = time.perf_counter()
                subprocess.run([*words, file.name], capture_output=True, check=False)
                took = time.perf_counter() - begun
                best[name] = min(took, best.get(name, took))
    print(f"60,000 commands: {1000 * best['C']:.0f} ms by the library, {1000 * best['program']:.0f} ms by the program")
    wanted = by_program(False, plan)
    yield 0, wanted[0], "the program, 60,000 commands"
    yield wanted, by_c(False, plan), "C, 60,000 commands"
    yield True, best["C"] <= 1.5 * best["program"] + 0.02, "the time of 60,000 commands"


def main():
    count, seed = int(sys.argv[3]), int(sys.argv[4])
    passed = failed = 0
    for answers in (example_plans(), refused_plans(), random_texts(count, seed), traces(count, seed), at_once(), long_plan()):
        for wanted, got, name in answers:
            if wanted == got:
                passed += 1
            else:
                failed += 1
                print(f"FAILED: {name}\n  wanted {wanted}\n  got {got}")
    print(f"{passed} passed, {failed} failed")
    return 1 if failed else 0


if __name__ == "__main__":
    sys.exit(main())
