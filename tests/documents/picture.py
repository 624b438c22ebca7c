#!/usr/bin/env python3
"""README.md's picture of boxes and the list in crates/README.md say what crates.txt says.

Usage: picture.py. The list has a heading for each box and below it a line for each crate, as `- **crate**: what it is`.
A crate stands on crates below it in the list; on those of the last part, TESTS, none stands. The boxes of the picture
are the other parts, in their order. What README.md trusts of the kit is what the crates stand on. Each crate that a line of
crates.txt has is named in some file of the line's crate. Prints each difference, and `N passed, M failed` last.
"""

import glob
import os
import re
import sys

TOP = os.path.dirname(os.path.dirname(os.path.dirname(os.path.abspath(__file__))))
LIST = "crates/README.md"
TESTS = "tests"
CRATE = re.compile(r"- \*\*(\w+)\*\*: \S.*")
BOX = re.compile(r"\| (\w[\w ]*?) {2,}\S.* \|")
# parts of the toolchain's standard library
STANDARD = {"core", "std_alloc", "std_heap"}


def lines_of(name):
    with open(os.path.join(TOP, name), encoding="utf-8") as file:
        return file.read().split("\n")


def built():
    """Each crate of crates.txt, with what it stands on."""
    edges = {}
    for line in lines_of("crates.txt"):
        names, colon, below = line.partition("#")[0].partition(":")
        if colon:
            edges[names.split()[0]] = set(below.split())
    return edges


def listed():
    """The parts of the list, each with its crates, and the lines that are none."""
    parts, wrong = {}, []
    for line in lines_of(LIST):
        if line.startswith("## "):
            parts[line[3:]] = []
        elif line.startswith("- "):
            crate = CRATE.fullmatch(line)
            if crate and parts:
                [*parts.values()][-1].append(crate[1])
            else:
                wrong.append(f"no line of a crate: {line}")
    return parts, wrong


def drawn():
    """The boxes of README.md's picture, from the top."""
    return [box[1] for box in map(BOX.fullmatch, lines_of("README.md")) if box]


def unnamed(name, below):
    """What is wrong with the crates that one stands on: those that none of its files names."""
    folder = os.path.join(TOP, "crates", name)
    paths = [path for kind in ("src", "specs", "proofs") for path in glob.glob(f"{folder}/{kind}/**/*.*t", recursive=True)]
    words = set()
    for path in paths:
        with open(path, encoding="utf-8") as file:
            words.update(re.findall(r"\w+", file.read()))
    lost = sorted(below - words)
    return f"none of its files names {', '.join(lost)}" if lost else None


def difference(name, edges, order, tests):
    """What is wrong with the line of one crate; None where all is well."""
    if order.count(name) != 1:
        return f"{LIST} has it {order.count(name)} times"
    if name not in edges:
        return "crates.txt does not have it"
    if name in tests:
        above = sorted(other for other, below in edges.items() if name in below)
        return f"it is one of the tests, and {', '.join(above)} stands on it" if above else None
    higher = sorted(it for it in edges[name] if it in order[: order.index(name)])
    return f"it stands below {', '.join(higher)}" if higher else None


def trusted(edges):
    """What is wrong with the kit's crates that README.md says are trusted; None where all is well."""
    line = next((line for line in lines_of("README.md") if "Rattle kit whose logic" in line), "")
    named = set(re.findall(r"`(\w+)`", line.partition("its crates")[2]))
    of_kit = set().union(*edges.values()) - set(edges) - STANDARD
    return None if named == of_kit else f"README.md trusts {sorted(named)} of the kit, and crates.txt has {sorted(of_kit)}"


def main():
    edges = built()
    parts, failures = listed()
    tests = parts.get(TESTS, [])
    order = [name for crates in parts.values() for name in crates]
    passed = 0
    faults = {name: difference(name, edges, order, tests) for name in [*edges, *sorted(set(order) - set(edges))]}
    boxes = [part for part in parts if part != TESTS]
    faults |= {f"{name}, what it stands on": unnamed(name, below) for name, below in edges.items()}
    faults["the boxes"] = None if drawn() == boxes else f"README.md draws {drawn()}, and {LIST} has {boxes}"
    faults["what is trusted"] = trusted(edges)
    for name, why in faults.items():
        if why is None:
            passed += 1
        else:
            failures.append(f"{name}: {why}")
    for it in failures:
        print(f"FAILED: {it}")
    print(f"{passed} passed, {len(failures)} failed")
    sys.exit(1 if failures else 0)


main()
