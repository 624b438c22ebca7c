#!/usr/bin/env python3
"""Scripts in JavaScript that become plans, beside node: see scripts_in.mjs. The plans of the lessons and of the random scripts
are then run on node's own objects by engines/plan.js, and nothing may contradict the rules.

Usage: scripts_in.py COUNT SEED. Without a node that can run the engine all is skipped. Prints what fails, and `N passed, M failed` last.
"""

import os
import subprocess
import sys
import tempfile

TOP = os.path.dirname(os.path.dirname(os.path.dirname(os.path.abspath(__file__))))
sys.path[:0] = [os.path.join(TOP, "tests", "lib"), os.path.join(TOP, "engines", "lib")]

import given
import hosts
import session

# A module with a memory of 64 bits, which the engine as WebAssembly needs.
WIDE = """require("node:v8").setFlagsFromString("--experimental-wasm-memory64");
process.exit(WebAssembly.validate(Uint8Array.of(0,97,115,109,1,0,0,0,5,3,1,4,1)) ? 0 : 1)"""


def wide_node():
    """A node that can run the engine."""
    engine = hosts.engine("node")
    if subprocess.run([engine.command, "-e", WIDE], stderr=subprocess.DEVNULL, check=False).returncode:
        raise hosts.Missing("this node has no 64-bit WebAssembly memory")
    return engine


def by_node(engine, count, seed, folder):
    """What the script in node says, and its two numbers."""
    script = os.path.join(TOP, "tests", "page", "scripts_in.mjs")
    words = [engine.command, "--expose-gc", script, count, seed, folder]
    said = subprocess.run(words, stdout=subprocess.DEVNULL, stderr=subprocess.PIPE, text=True, check=False).stderr
    lines = said.strip().splitlines()
    words = lines[-1].split() if lines else []
    if len(words) != 4 or words[1] != "passed,":
        print(f"FAILED: the script in node ended with: {said[-2000:]}")
        return 0, 1
    for line in lines[:-1]:
        print(line)
    return int(words[0]), int(words[2])


def on_objects(engine, folder):
    """The plans on the engine's own objects: how many are not contradicted, and how many are."""
    plans = given.plans_in([folder])
    wrong = 0
    for found in session.compare_all(engine, plans, None).found:
        fault = found.trouble()
        if fault or found.misreported:
            wrong += 1
            print(f"FAILED: {found.name} on node's objects: {fault}")
    return len(plans) - wrong, wrong


def main():
    count, seed = sys.argv[1:]
    passed = failed = 0
    try:
        engine = wide_node()
        with tempfile.TemporaryDirectory() as folder:
            for numbers in (by_node(engine, count, seed, folder), on_objects(engine, folder)):
                passed, failed = passed + numbers[0], failed + numbers[1]
    except hosts.Missing as missing:
        print(f"skipped: {missing}")
    print(f"{passed} passed, {failed} failed")
    return 1 if failed else 0


if __name__ == "__main__":
    sys.exit(main())
