#!/usr/bin/env python3
"""What a plan is warned of: the rows of warnings.json, which are by hand, through the program.

`explain` writes the warnings after `ok`, and `check` on standard error; a plan with a fault has none. What the page, the
module and the command for node say of the same rows is tested by node_command.py and kept_page.py.

Usage: plan_warnings.py PROGRAM. Prints what differs, and `N passed, M failed` last.
"""

import json
import os
import sys

TOP = os.path.dirname(os.path.dirname(os.path.dirname(os.path.abspath(__file__))))
sys.path.insert(0, os.path.join(TOP, "tests", "lib"))

from running import Count, answer


def try_row(count, program, name, plan, lines):
    text = "".join(f"{line}\n" for line in lines)
    # a plan whose text matters is a text
    data = (plan if isinstance(plan, str) else json.dumps(plan)).encode()
    status, said, errors = answer([program, "check"], data)
    if status == 1:
        count.expect(f"{name}, check of a fault", (said, lines), ("", []))
        return
    count.expect(f"{name}, check", (status, said, errors), (0, "ok\n", text))
    count.expect(f"{name}, explain", answer([program, "explain"], data), (0, f"ok\n{text}", ""))
    count.expect(f"{name}, run", answer([program, "run", "--turns"], data)[2], "")


def main():
    program = sys.argv[1]
    with open(os.path.join(TOP, "tests", "rows", "warnings.json"), encoding="utf-8") as file:
        rows = json.load(file)
    count = Count()
    for row in rows:
        try_row(count, program, row["name"], row["plan"], row["lines"])
    count.end()


if __name__ == "__main__":
    main()
