#!/usr/bin/env python3
"""docs/BELIEVE.md lists exactly the files of definitions that a reader has to believe, with their sizes, and no promise
rests on another.

Usage: believe.py          prints each fault, and `N passed, M failed` last
       believe.py --sizes  writes the sizes anew

Each file of crates/*/specs, but for Lib.antt, says in its first line whether it is `To believe` or `Internal`. The
section SECTION has one line a crate, as `- **crate**: [File](path) size, ..`, and in these lines each file to believe
once, and no other. A size is the number of lines that are neither empty nor a `use`. The section FEW has twelve files
and five of which only a few words are needed: the file that says what is live takes words from these alone. A file to
believe takes no word from an internal one. Nor do the contracts of the calls that a crate exports, and the ghost members
of its types and their impls (their models, what a conversion gives, what they own), but for those of INSIDE and
KEEPING; of a program it is the calls that docs/PROVED.md names.
"""

import glob
import os
import re
import sys

TOP = os.path.dirname(os.path.dirname(os.path.dirname(os.path.abspath(__file__))))
PAGE = os.path.join(TOP, "docs", "BELIEVE.md")
PROVED = os.path.join(TOP, "docs", "PROVED.md")
PROMISED = re.compile(r"^\*\*([\w, ]+)\.\*\* (.*)$", re.M)
SECTION = "## All, in reading order"
FEW = "## Weak references alone"
LIVE = ("es_event", "Live")
ONE = r"\[\w+\]\(\.\./crates/\w+/specs/\w+\.antt\)"
LINE = re.compile(rf"- \*\*(\w+)\*\*: ({ONE} \d+(?:, {ONE} \d+)*)")
FILE = re.compile(r"\[(\w+)\]\(\.\./crates/(\w+)/specs/(\w+)\.antt\)(?: (\d+))?")
TOGETHER = re.compile(r"Together they have (\d+) lines")
# the steps of marking, an agent's inside, and what is told part by part; and of es_event what is no promise of its own
INSIDE = {
    ("es_mark", "Listed"),
    ("es_mark", "Steps"),
    ("es_mark", "Waiting"),
    ("es_props", "Variables"),
    ("es_tables", None),
    ("es_record", None),
    ("es_match", "Orderly"),
    ("es_match", "DeedsShown"),
    ("es_match", "Split"),
    ("es_match", "LedgerPass"),
    ("es_reading", None),
    ("es_script", "Drafts"),
    ("es_script", "Quick"),
    ("es_script", "Taking"),
    ("es_event", "Log"),
    ("es_event", "Reading"),
}
# types whose values are read off what they keep, and types whose invariants no caller sees
KEEPING = {
    ("es_agent", "AgentCore"),
    ("es_match", "Rest"),
    ("es_event", "Done"),
    ("es_event", "OptionalName"),
    ("es_ledger", "LedgerCore"),
    ("es_mark", "Marks"),
    ("es_props", "Heap"),
    ("es_registry", "Registries"),
    ("es_ticket", "Opened"),
    ("es_ticket", "Rows"),
    ("es_ticket", "Stake"),
}
WORDS = re.compile(r"use Rattle\.(\w+)\.specs\.(\w+)\.\{([^}]*)\}")
EXPORTS = re.compile(r"^pub use [\w:]+::(?:\{([^}]*)\}|(\w+));", re.MULTILINE)
OWNER = re.compile(r"(?:impl(?:<[^>]*>)? (?:[\w<>, ]+ for )?|pub trait )(\w+)")
CALL = re.compile(r"( *)(pub |pub\(crate\) |)(?:const )?fn (\w+)")
CLAUSE = re.compile(r" +(?:requires|ensures)(?: \w+)? \{(.*)\}")
MEMBER = re.compile(r" +ghost (Value|view|invariant|from_gives|also_owns) = (\{.*)")


def kinds():
    """Each file of definitions as (crate, name), with the word that its first line begins with, or None."""
    found = {}
    for path in sorted(glob.glob(os.path.join(TOP, "crates", "*", "specs", "*.antt"))):
        crate, _, file = path.split(os.sep)[-3:]
        if file == "Lib.antt":
            continue
        with open(path, encoding="utf-8") as text:
            word = re.match(r"-- (To believe|Internal): \S", text.readline())
        found[crate, file[: -len(".antt")]] = word and word[1]
    return found


def section(heading):
    """The lines of the page below this heading, up to the next."""
    lines = read(PAGE).split("\n")
    start = lines.index(heading) + 1
    ends = [at for at, line in enumerate(lines) if at >= start and line.startswith("## ")]
    return lines[start : ends[0] if ends else len(lines)]


def listed():
    """The files that the page lists with their sizes, in its order, and the lines of its list that are none."""
    files, wrong = [], []
    for line in section(SECTION):
        parts = LINE.fullmatch(line)
        if parts:
            found = FILE.findall(parts[2])
            files += [((crate, file), int(size)) for _, crate, file, size in found]
            wrong += [f"{name} of {parts[1]} leads elsewhere" for name, crate, file, _ in found if (crate, file) != (parts[1], name)]
        elif line.startswith("- "):
            wrong.append(f"no line of the list: {line}")
    return files, wrong


def size_of(file):
    """How many lines of a file of definitions are neither empty nor a `use`."""
    lines = read(path_of(file)).split("\n")
    return sum(1 for line in lines if line.strip() and not line.startswith("use "))


def path_of(file):
    return os.path.join(TOP, "crates", file[0], "specs", f"{file[1]}.antt")


def needed(file, files):
    """The files of definitions from which this one takes words, and from which those do, and so on."""
    seen, ahead = set(), [file]
    while ahead:
        it = ahead.pop()
        if it not in seen:
            seen.add(it)
            ahead += [other for other in words_of(read(path_of(it))).values() if other in files]
    return seen


def few(files):
    """What is wrong with the short list; None where all is well."""
    named = [(crate, file) for _, crate, file, _ in FILE.findall("\n".join(section(FEW)))]
    if set(named) != needed(LIVE, files) or len(named) != 22:
        odd = sorted(set(named) ^ needed(LIVE, files))
        return f"the short list is not what {LIVE[1]} takes words from: {odd}"
    return None


def write_sizes(files):
    """Writes the page with the sizes as they are."""
    total = sum(size_of(file) for file, kind in files.items() if kind == "To believe")
    text = re.sub(rf"({ONE}) \d+", lambda it: f"{it[1]} {size_of(FILE.match(it[1]).group(2, 3))}", read(PAGE))
    with open(PAGE, "w", encoding="utf-8") as page:
        page.write(TOGETHER.sub(f"Together they have {total} lines", text))


def words_of(text):
    """Where the words of definitions come from that this text uses, by the names that it gives them."""
    words = {}
    for crate, file, names in WORDS.findall(text):
        for name in names.split(","):
            word, _, other = name.strip().partition(" as ")
            words[other or word] = crate, file
    return words


def read(path):
    with open(path, encoding="utf-8") as text:
        return text.read()


def is_program(crate):
    return not os.path.exists(os.path.join(TOP, "crates", crate, "src", "lib.rt"))


def exported(crate):
    """The names that a crate's root exports; of a program those of which docs/PROVED.md speaks."""
    if is_program(crate):
        lines = [line for names, line in PROMISED.findall(read(PROVED)) if crate in names.split(", ")]
        return {name for line in lines for name in re.findall(r"`(\w+)`", line)}
    found = EXPORTS.findall(read(os.path.join(TOP, "crates", crate, "src", "lib.rt")))
    return {name.strip() for names, name in found for name in (names or name).split(",")}


def member(lines, first):
    """The ghost member whose text begins at this line, up to the line that ends it."""
    last = next(at for at in range(first, len(lines)) if lines[at].endswith("};"))
    return MEMBER.match(lines[first])[2] + "\n".join(lines[first + 1 : last + 1])


def clauses(text, exports, words):
    """Each clause of an exported call, with the call's name, and the ghost members of each exported type and its impls.
    A call is seen that stands behind one of these words."""
    owner, call, trait = None, None, False
    lines = text.split("\n")
    for at, line in enumerate(lines):
        if begun := OWNER.match(line):
            owner, call, trait = begun[1], None, line.startswith("pub trait ")
        elif begun := CALL.match(line):
            seen = owner in exports if begun[1] else begun[3] in exports
            call = begun[3] if seen and (trait or begun[2] in words) else None
        elif call and (clause := CLAUSE.match(line)):
            yield call, clause[1]
        elif owner in exports and MEMBER.match(line):
            yield owner, member(lines, at)


def spoken(crate):
    """Each file of definitions through which a contract of this crate speaks, with the call or type, and the word."""
    exports = exported(crate)
    for path in sorted(glob.glob(os.path.join(TOP, "crates", crate, "src", "**", "*.rt"), recursive=True)):
        text = read(path)
        words = words_of(text)
        for call, clause in clauses(text, exports, ("pub ", "pub(crate) ") if is_program(crate) else ("pub ",)):
            for word in re.findall(r"[A-Za-z_][\w']*", clause):
                if word in words:
                    yield words[word], call, word


def silent(crate, call, file, files):
    """Whether this call or type of the crate may not speak through that file."""
    return files.get(file) == "Internal" and (crate, call) not in KEEPING and not {(crate, None), file} & INSIDE


def rests(files):
    """What rests on an internal file, and how many files and crates were looked at."""
    wrong, looked = [], 0
    for (crate, name), kind in files.items():
        if kind == "To believe":
            looked += 1
            words = words_of(read(path_of((crate, name))))
            inside = sorted((word, *file) for word, file in words.items() if files.get(file) == "Internal")
            wrong += [f"{crate}: {name} takes {word} of {of}'s {file}, which is internal" for word, of, file in inside]
    for crate in sorted(os.path.basename(os.path.dirname(folder)) for folder in glob.glob(os.path.join(TOP, "crates", "*", ""))):
        looked += 1
        inside = {(call, word, *file) for file, call, word in spoken(crate) if silent(crate, call, file, files)}
        for call, word, of, file in sorted(inside):
            wrong.append(f"{crate}: {call} speaks of {word} of {of}'s {file}, which is internal")
    return wrong, looked


def fault(file, kind, sizes):
    """What is wrong with a file of this kind that the page lists with these sizes; None where all is well."""
    if kind is None:
        return "its first line begins neither with `-- To believe: ` nor with `-- Internal: `"
    if kind == "To believe" and len(sizes) != 1:
        return f"it is to believe, and docs/BELIEVE.md lists it {len(sizes)} times"
    if kind == "Internal" and sizes:
        return "it is internal, and docs/BELIEVE.md lists it"
    if sizes and sizes[0] != size_of(file):
        return f"it has {size_of(file)} lines, and docs/BELIEVE.md says {sizes[0]}: tests/documents/believe.py --sizes"
    return None


def main():
    files = kinds()
    if sys.argv[1:] == ["--sizes"]:
        write_sizes(files)
        return
    lines, failures = listed()
    passed = 0
    for file, kind in files.items():
        why = fault(file, kind, [size for it, size in lines if it == file])
        if why is None:
            passed += 1
        else:
            failures.append(f"crates/{file[0]}/specs/{file[1]}.antt: {why}")
    for crate, name in sorted({it for it, _ in lines} - set(files)):
        failures.append(f"docs/BELIEVE.md lists {name} of {crate}, and there is no such file")
    together = TOGETHER.search(read(PAGE))
    total = sum(size for _, size in lines)
    for why in (few(files), None if together and int(together[1]) == total else f"the sizes are {total} lines together"):
        if why is None:
            passed += 1
        else:
            failures.append(why)
    wrong, looked = rests(files)
    failures += wrong
    passed += looked - min(looked, len(wrong))
    for it in failures:
        print(f"FAILED: {it}")
    print(f"{passed} passed, {len(failures)} failed")
    sys.exit(1 if failures else 0)


main()
