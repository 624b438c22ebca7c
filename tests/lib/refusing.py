"""Runs of a program with one of its growths refused, by a library that stands before the C library (refuse.c)."""

import os

import running

IN_A_ROW = 20  # in threads so many numbers that refuse nothing are the end
MOST = 20000  # and so many are too many


class Refusing:
    """Runs a program with the growth of a number refused, and counts what came of it."""

    def __init__(self, program, library, room):
        self.program, self.library, self.count, self.refused = program, library, running.Count(), 0
        self.told = os.path.join(room, f"growths{os.getpid()}")

    def run(self, words, data, number):
        """The answer where this growth is refused (0 refuses none), and how many growths there were."""
        with open(self.told, "w", encoding="ascii") as file:
            file.write("0\n")
        how = running.preloaded(self.library, REFUSE=number, GROWTHS=self.told)
        got = running.answer([self.program, *words], data, env=how)
        if words[0] == "check":
            got = running.unwarned(got)
        with open(self.told, encoding="ascii") as file:
            return got, int(file.readline())

    def each(self, what, words, data, numbers, ends):
        """Refuses the growth of each of these numbers: the run is to be out of memory, or to end as one may that refuses
        nothing."""
        for number in numbers:
            got, growths = self.run(words, data, number)
            met = growths >= number and got == running.OUT_OF_MEMORY
            self.refused += met
            self.count.add(f"{what}, growth {number} of {growths}", None if met or got == ends else got)

    def all(self, what, words, data, ends):
        """The same of each growth of a run in one thread, whose growths are the same each time."""
        got, growths = self.run(words, data, 0)
        self.count.expect(what, got, ends)
        self.each(what, words, data, range(1, growths + 1), ends)
        self.at_least(what, 50)

    def all_in_threads(self, what, words, data, ends):
        """The same of each growth of a run in threads, whose growths are not the same from run to run, nor as many."""
        number = without = in_a_row = 0
        while in_a_row < IN_A_ROW and number < MOST:
            number += 1
            before = self.refused
            self.each(what, words, data, [number], ends)
            in_a_row = 0 if self.refused > before else in_a_row + 1
        self.count.add(what, f"no end after {number} growths" if number == MOST else None)
        self.at_least(what, 100)

    def at_least(self, what, least):
        self.count.add(what, f"only {self.refused} growths refused" if self.refused < least else None)
