#!/usr/bin/env python3
"""Each growth refused in turn, on both ways of the reader: the run ends as `out of memory` with nothing written, or with
the row's report. The rows stand in growths.txt, with reports that were worked out by hand.

Usage: refused_growths.py PROGRAM [CALLS] [--long] [--jobs N]. PROGRAM is clusterrun, CALLS the program of the crate
`calls`. Prints each run that ends otherwise, how many growths were refused, and `N passed, M failed` last. It needs a C
compiler.

Each row is run by turns, in threads, and in threads with helpers beside a watcher (one of version 2 with one helper, with
three, and with three beside a watcher: a helper marks the copy of its graph while the agent goes on), and that with
callbacks is checked and explained (with --long each row, and there are more helpers and watchers). A plan of which a key
has an escape is read by way of its JSON value, and so each row is run once more with such a key; that it is another way is
told by its growths. In threads the growths are not the same from run to run: the numbers go on until twenty in a row
refuse nothing. A few growths can be done without: where a list is made of an iterator, room for all of it is asked for at
first, and then piece by piece.

With CALLS the rows of turns.txt, with an audit after each turn, are played with each growth refused: the audits are those
that were worked out by hand, up to the end or to where there is no memory, with status 1. growths.sh refuses the growths
of the examples.
"""

import argparse
import functools
import multiprocessing
import os
import sys
import tempfile

TOP = os.path.dirname(os.path.dirname(os.path.dirname(os.path.abspath(__file__))))
sys.path.insert(0, os.path.join(TOP, "tests", "lib"))

import running
import scripts
import turns
from refusing import Refusing

REFUSE = os.path.join(TOP, "tests", "program", "refuse.c")
ESCAPED = (b'"name"', b'"n\\u0061me"')
THREADS = {
    1: [[], ["--helpers", "2", "--watch", "2"]],
    2: [[], ["--helpers", "3"], ["--helpers", "3", "--watch", "2"]],  # with later collections
    3: [[]],
}
MORE_THREADS = [["--helpers", "8"], ["--watch", "1"], ["--helpers", "3", "--watch", "20"]]


def rows(name, kind=scripts.Row):
    return list(scripts.rows_of(os.path.join(TOP, "tests", "rows", name), kind))


def plain(row):
    return row.title, row.plan(), row.report()


def escaped(row):
    return f"{row.title}, by way of its value", row.plan().replace(*ESCAPED), row.report()


def try_turns(refusing, row):
    what, data, report = row
    refusing.all(f"{what}, by turns", ["run", "--turns"], data, (0, report, ""))


def try_threads(options, refusing, row):
    what, data, report = row
    audits = f"audits {options[-1]}\n" if "--watch" in options else ""
    what = " ".join([what, "in threads", *options])
    refusing.all_in_threads(what, ["run", *options], data, (0, report, audits))


def try_read(refusing, row):
    """A plan that is only read, and one whose last byte is wrong, which is explained."""
    what, data, _ = row
    refusing.all(f"{what}, checked", ["check"], data, (0, "ok\n", ""))
    fault = "S1 line 1 column 1\nThis { is never closed.\n"
    refusing.all(f"{what}, explained", ["explain"], data[:-1], (1, fault, ""))


def try_ways(refusing, row):
    """Whether the two ways of the reader are two: by way of its value a plan makes more growths."""
    growths = [refusing.run(["check"], way(row)[1], 0)[1] for way in (plain, escaped)]
    refusing.count.add(f"{row.title}, read", None if growths[1] > growths[0] + 10 else f"{growths} growths")


def try_played(refusing, row):
    """Plays a row, and refuses each growth."""
    refusing.count.add(row.title, row.fault(refusing.program))
    words, data = row.words(), row.plan()
    whole, growths = refusing.run(words, data, 0)
    for number in range(1, growths + 1):
        got, _ = refusing.run(words, data, number)
        stops = got[0] == 1 and got[2] == "" and whole[1].startswith(got[1]) and got[1] != whole[1]
        refusing.refused += stops
        refusing.count.add(f"{row.title}, growth {number}", None if stops or got == whole else got)
    refusing.at_least(row.title, 50)


def cases(program, played, is_long):
    """What is tried: a function, the program, and a row."""
    for row in rows("growths.txt"):
        # a plan with `try` is read by way of its value alone
        ways = (plain,) if row.version == 3 else (plain, escaped)
        if escaped in ways:
            yield try_ways, program, row
        for way in ways:
            if is_long or "callbacks" in row.title:
                yield try_read, program, way(row)
            yield try_turns, program, way(row)
            for options in THREADS[row.version] + (MORE_THREADS if is_long else []):
                yield functools.partial(try_threads, options), program, way(row)
    for row in rows("turns.txt", turns.Played) if played else []:
        yield try_played, played, row


def tried(library, room, case):
    function, program, row = case
    refusing = Refusing(program, library, room)
    function(refusing, row)
    return refusing.count, refusing.refused


def main():
    words = argparse.ArgumentParser(description=__doc__, formatter_class=argparse.RawDescriptionHelpFormatter)
    words.add_argument("program", metavar="PROGRAM", type=os.path.abspath)
    words.add_argument("calls", nargs="?", metavar="CALLS", type=os.path.abspath)
    words.add_argument("--long", action="store_true")
    words.add_argument("--jobs", type=int, default=1, metavar="N")
    given = words.parse_args()
    count, refused = running.Count(), 0
    with tempfile.TemporaryDirectory() as room, multiprocessing.Pool(given.jobs) as pool:
        function = functools.partial(tried, running.built(room, REFUSE), room)
        for some, number in pool.imap(function, cases(given.program, given.calls, given.long)):
            count.join(some)
            refused += number
    print(f"{refused} growths refused")
    count.end()


if __name__ == "__main__":
    main()
