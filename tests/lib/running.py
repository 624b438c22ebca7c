"""Runs of the program, for the tests: how each ended and what it wrote, and the count of what passed."""

import os
import subprocess
import sys
from concurrent.futures import ThreadPoolExecutor

# The ways to run a plan, and what stands on standard error after a run that ended well.
WAYS = {
    "by turns": (["--turns"], ""),
    "in threads": ([], ""),
    "watched": (["--watch", "1000"], "audits 1000\n"),
}
OUT_OF_MEMORY = (3, "", "out of memory\n")
LIMIT = 300  # the seconds of a run, on a machine that may be loaded


def answer(words, data=b"", limit=LIMIT, **how):
    """The status (below 0 the signal that ended it), what was written, and what stands on standard error. A run that does
    not end has None for its status, and what is said of that in the place of an error."""
    try:
        ran = subprocess.run(words, input=data, capture_output=True, timeout=limit, check=False, **how)
    except subprocess.TimeoutExpired:
        return None, "", f"no end after {limit} seconds"
    return ran.returncode, ran.stdout.decode(errors="replace"), ran.stderr.decode(errors="replace")


def unwarned(ended):
    """The same end without what a plan is warned of on standard error: that is for plan_warnings.py to look at."""
    status, said, errors = ended
    return status, said, "".join(line for line in errors.splitlines(keepends=True) if not line.startswith("warning "))


def preloaded(library, **variables):
    """The environment of a run that this library stands before, with these variables."""
    return {**os.environ, "LD_PRELOAD": library, **{name: str(value) for name, value in variables.items()}}


def built(room, source):
    """The path of a library that is made of this source, in a folder."""
    library = os.path.join(room, os.path.splitext(os.path.basename(source))[0] + ".so")
    compiler = os.environ.get("CC", "cc")
    words = [compiler, "-shared", "-fPIC", "-O1", "-Wall", "-o", library, source]
    subprocess.run(words, check=True)
    return library


class Count:
    """How many tests passed, and what is to be said of those that failed."""

    def __init__(self):
        self.passed, self.faults = 0, []

    def add(self, what, fault=None):
        """Counts a test; one with a fault has failed."""
        if fault:
            self.faults.append(f"FAILED: {what}: {str(fault)[:1000]}")
        else:
            self.passed += 1

    def expect(self, what, got, want):
        """Counts a test that is to give this."""
        self.add(what, None if got == want else f"wanted {str(want)[:300]}\n  got {str(got)[:300]}")

    def expect_all(self, cases, jobs):
        """Counts a run for each case, so many of them at once: what it is, its words, its bytes, what it is to give (of a
        check without warnings), and how it is made."""

        def ended(case):
            what, words, data, want, how = case
            got = answer(words, data, **how)
            return what, unwarned(got) if words[1:2] == ["check"] else got, want

        with ThreadPoolExecutor(jobs) as pool:
            for what, got, want in pool.map(ended, cases):
                self.expect(what, got, want)

    def join(self, other):
        """Counts the tests of another count too."""
        self.passed += other.passed
        self.faults += other.faults

    def end(self):
        """Prints what failed and the last line, and ends."""
        for fault in self.faults:
            print(fault)
        print(f"{self.passed} passed, {len(self.faults)} failed")
        sys.exit(1 if self.faults else 0)
