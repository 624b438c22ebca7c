#!/usr/bin/env python3
"""Random plans, whole and spoiled, through the program, by turns, and through rules.py: each answer must be the same. The
plans are those of random_plans.py and third_plans.py.

Usage: plans_by_rules.py PROGRAM COUNT SEED. Prints each plan that differs, how many have what, and `N passed, M failed`
last.
"""

import os
import random
import re
import subprocess
import sys

TOP = os.path.dirname(os.path.dirname(os.path.dirname(os.path.abspath(__file__))))
sys.path.insert(0, os.path.join(TOP, "tests", "lib"))

import random_plans
import rules
import third_plans


def main():
    program, count, seed = sys.argv[1], int(sys.argv[2]), int(sys.argv[3])
    rng = random.Random(seed)
    failed = 0
    have = dict.fromkeys(["refused", *random_plans.PARTS], 0)
    for number in range(count):
        data = third_plans.text_of_any(rng)
        ran = subprocess.run([program, "run", "--turns"], input=data, capture_output=True, timeout=60, check=False)
        got = (ran.returncode, ran.stdout.decode(), ran.stderr.decode())
        want = rules.answer(data)
        have["refused"] += want[0]
        for part, line in random_plans.PARTS.items():
            have[part] += bool(re.search(line, want[1], re.MULTILINE))
        if got != want:
            failed += 1
            print(f"plan {number} of seed {seed}: {data!r}\n  wanted {want}\n  got {got}")
    print(f"of {count} plans: " + ", ".join(f"{part} {number}" for part, number in have.items()))
    print(f"{count - failed} passed, {failed} failed")
    sys.exit(1 if failed else 0)


if __name__ == "__main__":
    main()
