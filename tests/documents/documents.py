#!/usr/bin/env python3
"""What the documents of the repository promise of themselves.

Usage: documents.py. Prints each fault, and `N passed, M failed` last.

- Each document says in its first paragraph for whom it is; its links lead somewhere, and the files that it names are
  there. Each of its sections keeps its length, in words outside blocks of code and tables, and README.md as a whole. A log
  may have any length.
- README.md quotes its plan and its report from examples/, its script from play/lessons, and its numbers from docs/PERFORMANCE.md.
- tests/README.md has a row for each test that `check` runs, with the words with which it is called. It has one for each
  other file of tests/ too, or for the folder of rows in which it stands. It says how many wrong bodies there are.
- docs/GLOSSARY.md has each word once, in order. CHANGELOG.md has the program's version. What docs/BREAKING.md quotes of
  the code stands there, and the plans of docs/TUTORIAL.md have its reports by rules.py.
"""

import glob
import os
import re
import subprocess
import sys

TOP = os.path.dirname(os.path.dirname(os.path.dirname(os.path.abspath(__file__))))
sys.path.insert(0, os.path.join(TOP, "tests", "lib"))

import rules

FOR_WHOM = re.compile(r"\b[Ff]or (those|anyone|people)\b")
LONGEST = 1600  # words of a section
WHOLE = {"README.md": 1700}  # words of a document
LINK = re.compile(r"\]\(([^)#\s]*)(?:#([^)\s]*))?\)")
FOLDER = re.compile(r"^## (\w+)/\n(.*?)(?=^## |\Z)", re.S | re.M)  # of tests/README.md
TABLE = re.compile(r"^\| ([^|]*) \|.*\n\|---.*\n((?:\|.*\n)*)", re.M)
FILE = re.compile(r"`((?:docs|tests|crates|examples|bench|embed|engines|play)/[\w./*-]+)`")


def read(path):
    with open(os.path.join(TOP, path), encoding="utf-8") as file:
        return file.read()


def kept(pattern):
    """The files of a folder, or with an ending, that are kept, or that are new and will be."""
    words = ["git", "ls-files", "--cached", "--others", "--exclude-standard", pattern]
    listed = subprocess.run(words, cwd=TOP, stdout=subprocess.PIPE, text=True, check=True).stdout.split("\n")
    return sorted(path for path in set(listed) if path and os.path.exists(os.path.join(TOP, path)))


def prose(text):
    """The text without its blocks of code."""
    return re.sub(r"^```.*?^```$", "", text, flags=re.S | re.M)


def anchors(path):
    """The anchors of a document's headings."""
    headings = re.findall(r"^#+ (.*)$", prose(read(path)), re.M)
    return {re.sub(r"[^\w -]", "", heading.lower()).replace(" ", "-") for heading in headings}


def beginning(path):
    """What is wrong with a document's title and first paragraph."""
    parts = read(path).split("\n\n")
    if not parts[0].startswith("# "):
        return "it does not begin with a title"
    return None if FOR_WHOM.search(parts[1]) else "its first paragraph does not say for whom it is"


def length(path):
    """What of a document is too long."""
    text = prose(read(path))
    words = len(text.split())
    if words > WHOLE.get(path, words):
        return f"it has {words} words, and may have {WHOLE[path]}"
    if path.startswith("docs/log/"):
        return None
    parts = re.split(r"^(#+ .*)$", text, flags=re.M)
    for heading, part in zip(parts[1::2], parts[2::2]):
        words = sum(len(line.split()) for line in part.split("\n") if not line.startswith("|"))
        if words > LONGEST:
            return f"{heading} has {words} words, and may have {LONGEST}"
    return None


def links(path):
    """The links of a document that lead nowhere."""
    wrong = []
    for goal, anchor in LINK.findall(prose(read(path))):
        if re.match(r"\w+:", goal):
            continue
        there = os.path.normpath(os.path.join(os.path.dirname(path), goal)) if goal else path
        if not os.path.exists(os.path.join(TOP, there)):
            wrong.append(goal)
        elif anchor and anchor not in anchors(there):
            wrong.append(f"{goal}#{anchor}")
    return f"these links lead nowhere: {', '.join(wrong)}" if wrong else None


def files(path):
    """The files that a document names and that are not there. What was measured once names what was there then."""
    if path.startswith("docs/log/"):
        return None
    made = ("NAME", "/out", "libclusterrun")  # these stand for others, or are built
    named = {name for name in FILE.findall(read(path)) if not any(part in name for part in made)}
    wrong = sorted(name for name in named if not glob.glob(os.path.join(TOP, name)))
    return f"these files are not there: {', '.join(wrong)}" if wrong else None


def quotes():
    """What README.md is to quote of an example and of a lesson, and does not have."""
    for path in (*(f"examples/gone.{kind}" for kind in ("json", "report", "trace")), "play/lessons/weakref-still-answers.js"):
        if f"\n{read(path)}```\n" not in read("README.md"):
            return f"it does not quote {path}"
    return None


def columns(heading, names, skipped=()):
    """Columns of the first table below a heading of docs/PERFORMANCE.md as numbers, row by row."""
    part = read("docs/PERFORMANCE.md").split(f"## {heading}\n")[1].split("\n## ")[0]
    lines = [line for line in part.split("\n") if line.startswith("|")]
    head = [cell.strip() for cell in lines[0].strip("|").split("|")]
    for line in lines[2:]:
        cells = [cell.strip() for cell in line.strip("|").split("|")]
        if cells[0].strip("`") not in skipped:
            yield [float(cells[head.index(name)]) for name in names]


def span(heading, name, skipped=()):
    """The least and the largest number of a column, as the table writes them."""
    numbers = [row[0] for row in columns(heading, [name], skipped)]
    digits = 1 if name.endswith("ms") else 2
    return f"{min(numbers):.{digits}f} to {max(numbers):.{digits}f}"


def numbers():
    """The numbers of README.md that are not those of docs/PERFORMANCE.md."""
    alone, messages, collection = "Plans of one agent", "Plans with messages", "One collection"
    wanted = [
        f"| plans of one agent: time | {span(alone, 'time, ratio', ['start'])} of node's |",
        f"| plans of one agent: peak memory | {span(alone, 'memory, ratio', ['start'])} of node's |",
        f"| plans with messages and blocks, in threads: time | {span(messages, 'time, ratio')} of node's |",
        f"| one collection of a large heap, nothing emptied | {span(collection, 'clusterrun, ms')} ms;"
        f" forced in V8 {span(collection, 'node, ms')} ms |",
    ]
    lacking = [line for line in wanted if line not in read("README.md")]
    return f"docs/PERFORMANCE.md says: {' '.join(lacking)}" if lacking else None


def listed():
    """The rows of tests/README.md below the names of folders: the head of each one's table, and the file with its words."""
    for folder, part in FOLDER.findall(read("tests/README.md")):
        for head, rows in TABLE.findall(part):
            yield from ((head, f"{folder}/{cell}") for cell in re.findall(r"^\| `([^`]*)` \|", rows, re.M))


def called():
    """What is wrong with the rows of tests/README.md beside the calls in `check`."""
    gate = read("check").split('rm -f "$program" "$calls"')[1]
    for name in ("program", "calls", "first"):
        gate = gate.replace(f'"${name}"', name.upper())
    calls = re.findall(r"begin \w+ tests/(.*)", gate)
    odd = sorted(set(calls) ^ {cell for head, cell in listed() if head == "At each gate"})
    return f"it and `check` differ in: {', '.join(odd)}" if odd else None


def named():
    """The files of tests/ that have no row in tests/README.md, and the rows that stand twice or for nothing. Wrong bodies
    have folders by crate."""
    names = [cell.split(" ")[0] for _, cell in listed()]
    folders = [name for name in names if name.endswith("/")]
    files = [path.removeprefix("tests/") for path in kept("tests") if not path.startswith("tests/wrong_bodies/")]
    there = {next((name for name in folders if file.startswith(name)), file) for file in files} - {"README.md"}
    odd = sorted(there ^ set(names)) + [name for name in set(names) if names.count(name) > 1]
    return f"it is to name once: {', '.join(odd)}" if odd else None


def edits():
    """Whether tests/README.md says how many wrong bodies there are."""
    gate = len(glob.glob(os.path.join(TOP, "crates", "*", "must-fail", "*.edit")))
    others = len(glob.glob(os.path.join(TOP, "tests", "wrong_bodies", "*", "*.edit")))
    said = re.search(r"The gate tries (\d+)\. Others, (\d+) in all", read("tests/README.md"))
    right = said and (int(said[1]), int(said[2])) == (gate, others)
    return None if right else f"there are {gate} edits in the gate and {others} others"


def words():
    """What is wrong with the order of the glossary."""
    found = re.findall(r"^\| ([a-z][\w ]*) \|", read("docs/GLOSSARY.md"), re.M)
    wrong = [later for earlier, later in zip(found, found[1:]) if earlier >= later]
    return f"these words stand twice or out of order: {', '.join(wrong)}" if wrong or not found else None


def version():
    said = re.search(r'VERSION: &str = "(.*)"', read("crates/command_line/src/options.rt"))[1]
    return None if f"\n## {said}\n" in read("CHANGELOG.md") else f"it has no version {said}"


def breaking():
    """What docs/BREAKING.md quotes from a file that it names, and does not stand there."""
    found = re.findall(r"[Ff]rom `([^`]*)`:\n\n((?:    .*\n|\n)+)", read("docs/BREAKING.md"))
    wrong = []
    for path, block in found:
        lines = [line[4:].strip() for line in block.split("\n") if line.strip()]
        there = [line.strip() for line in read(path).split("\n")]
        wrong += [line for line in lines if line not in there]
    return f"these lines stand nowhere: {' / '.join(wrong)}" if wrong or not found else None


def worked():
    """The plans of docs/TUTORIAL.md whose report is not the block that follows."""
    found = re.findall(r"^```json\n(.*?)^```$.*?^```\n(.*?)^```$", read("docs/TUTORIAL.md"), re.S | re.M)
    wrong = [plan for plan, report in found if rules.report(rules.read_plan(plan.encode())) != report]
    return f"another report: {wrong}" if wrong or not found else None


def main():
    each = (beginning, length, links, files)
    faults = {f"{path}: {check.__name__}": check(path) for path in kept("*.md") for check in each}
    faults |= {"README.md: quotes": quotes(), "README.md: numbers": numbers()}
    faults |= {"tests/README.md: tests": called(), "tests/README.md: names": named(), "tests/README.md: edits": edits()}
    faults |= {"docs/GLOSSARY.md: words": words(), "CHANGELOG.md: version": version()}
    faults |= {"docs/BREAKING.md: quotes": breaking(), "docs/TUTORIAL.md: reports": worked()}
    passed = failed = 0
    for name, why in faults.items():
        passed, failed = passed + (why is None), failed + (why is not None)
        if why:
            print(f"FAILED: {name}: {why}")
    print(f"{passed} passed, {failed} failed")
    return 1 if failed else 0


if __name__ == "__main__":
    sys.exit(main())
