#!/usr/bin/env python3
"""Large heaps that helpers mark, with each growth of a collection refused in turn: the run ends as `out of memory` with
nothing written, or with the report of rules.py, or with one that was worked out by hand.

Usage: refused_marking.py PROGRAM [--long] [--jobs N]. Prints each run that ends otherwise, how many growths were refused,
and `N passed, M failed` last. It needs a C compiler.

The heaps are those of marking_helpers.py, up to their first collection, in which thousands of identities are followed at once, in
pieces, each by a helper. Another is an object with thousands of others, of which a later collection takes a copy that is
marked while the agent goes on, once while the object is held and once after it was let go; its report is by hand. The
growths of the collections are those that a run makes beyond one that ends before them. They are not quite as many from
run to run. With --long more heaps, helpers and watchers are tried.
"""

import argparse
import functools
import json
import multiprocessing
import os
import random
import sys
import tempfile

TOP = os.path.dirname(os.path.dirname(os.path.dirname(os.path.abspath(__file__))))
sys.path.insert(0, os.path.join(TOP, "tests", "lib"))

import marking_helpers
import rules
import running
from refusing import Refusing

REFUSE = os.path.join(TOP, "tests", "program", "refuse.c")
WAYS = [["--turns"], ["--helpers", "3"]]
LATER_WAYS = [*WAYS, ["--helpers", "3", "--watch", "2"]]
MORE_WAYS = [[], ["--helpers", "2"], ["--helpers", "8"], ["--helpers", "4", "--watch", "3"]]
AROUND = 20  # so many growths before the collection are refused too, and a few after it
WIDE = 4500


def drawn(seed):
    """This seed's heap up to its first collection, without it and with it, and the report."""
    pieces = list(marking_helpers.heap(random.Random(f"marked {seed}")))
    first = pieces.index([["collect"]])
    before, data = (json.dumps(marking_helpers.plan_of(pieces[:end])).encode() for end in (first, first + 1))
    return before, data, rules.answer(data)[1]


def later():
    """An object with others as properties, without its later collections and with them, and the report by hand."""
    made = [step for piece in marking_helpers.wide(WIDE) for step in piece if step[0] in ("new", "set")]
    jobs = marking_helpers.jobs_of([[step] for step in [*made, ["let", "o", None]]])
    # the object was held when the copy was taken; x, which holds it now, is made since
    held = [["collectlater"], ["new", "x"], ["set", "x", "p", "p"], ["let", "p", None], ["let", "x", None]]
    # now nothing leads to x, the object and the others
    gone = [["collectlater"], ["new", "y"], ["set", "y", "y", "y"]]
    lines = [f"emptied 0\nemptied {WIDE + 2}", "end live 0 awaiting 0 unregistered 0 taken 0"]
    lines = ["agent a", *lines, "cluster", "blocks 0 released 0", "messages posted 0 taken 0 drained 0", ""]
    plans = [jobs, [*jobs, {"run": held}, {"run": gone}]]
    agents = [[{"name": "a", "callbacks": {}, "jobs": jobs}] for jobs in plans]
    before, data = (json.dumps({"version": 2, "agents": agent}).encode() for agent in agents)
    return before, data, "\n".join(lines)


def try_case(library, room, program, case):
    """Refuses the growths of the collections that one plan has and the other has not."""
    what, plans, options = case
    refusing = Refusing(program, library, room)
    before, data, report = plans()
    audits = f"audits {options[-1]}\n" if "--watch" in options else ""
    words, ends = ["run", *options], (0, report, audits)
    begun, ended = refusing.run(words, before, 0)[1], refusing.run(words, data, 0)[1]
    what = f"{what} with {' '.join(options)}"
    refusing.count.expect(what, refusing.run(words, data, 0)[0], ends)
    refusing.each(what, words, data, range(begun - AROUND, ended + 3), ends)
    refusing.at_least(what, 20)
    return refusing.count, refusing.refused


def cases(is_long):
    """What is tried: its name, what gives its plans, and options."""
    more = MORE_WAYS if is_long else []
    for seed in range(3) if is_long else [0]:
        for options in (WAYS if seed == 0 else []) + more:
            yield f"heap {seed}", functools.partial(drawn, seed), options
    for options in LATER_WAYS + more:
        yield "a copy", later, options


def main():
    words = argparse.ArgumentParser(description=__doc__, formatter_class=argparse.RawDescriptionHelpFormatter)
    words.add_argument("program", metavar="PROGRAM", type=os.path.abspath)
    words.add_argument("--long", action="store_true")
    words.add_argument("--jobs", type=int, default=1, metavar="N")
    given = words.parse_args()
    count, refused = running.Count(), 0
    with tempfile.TemporaryDirectory() as room, multiprocessing.Pool(given.jobs) as pool:
        function = functools.partial(try_case, running.built(room, REFUSE), room, given.program)
        for some, number in pool.imap(function, cases(given.long)):
            count.join(some)
            refused += number
    print(f"{refused} growths refused")
    count.end()


if __name__ == "__main__":
    main()
