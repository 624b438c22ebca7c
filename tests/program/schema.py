#!/usr/bin/env python3
"""docs/plan.schema.json is the format of plans, as far as shape alone shows.

Usage: schema.py PROGRAM. Prints what differs, and `N passed, M failed` last.

- What the schema says of texts: each plan that is accepted (tests/rows/refusals, examples, tests/rows/scripts, docs/PLANS.md) is
  accepted by it, and each of tests/rows/refusals that is refused for its shape is refused. Where only its spelling makes a
  number wrong, the schema accepts it.
- The commands of the schema are those of the program's table, with the same operands; its limits are the program's; and
  what it says of each command begins as the row of docs/PLANS.md does.
- What may stand behind `try` are these commands, but for `try`.
- What the schemas of plans and traces say of each command is what command_schemas.py writes.
- Of small plans with one command, whole and spoiled, alone and behind `try`, the program accepts those that the schema
  accepts.

A schema sees values and not how they are written, so 1.0 and -0 are whole numbers to it. Texts are judged by those of
schema_judges.py.
"""

import glob
import itertools
import json
import os
import re
import subprocess
import sys

TOP = os.path.dirname(os.path.dirname(os.path.dirname(os.path.abspath(__file__))))
sys.path[:0] = [os.path.join(TOP, "tests", "lib"), os.path.join(TOP, "tests", "documents")]

import command_schemas
import refused_texts
import schema_judges
import scripts

# The faults that a shape can show; of S6, that nothing has a name, it shows none.
SHOWN = ("S2", "S3", "S4", "S5", "S7", "S8", "S9", "S10")
# Longer texts take too long: of any judge, and of the library. What is left out are accepted plans with a million
# commands of one word, and for the library those with 10,000.
LONGEST = 500_000
LONGEST_FOR_LIBRARY = 50_000

# What an operand is, by the definition of the schema that it has and by its name in the table of commands.
TYPES = {
    "assigned": "name", "read": "name", "key": "name", "literal": "literal", "text": "text", "callback": "callback",
    "other_agent": "agent", "number": "amount", "words": "words",
}
# What an operand has for a letter in docs/PLANS.md.
LETTERS = {
    "assigned": "X", "read": "YZOWMSRHTBD", "key": "K", "literal": "L", "text": ("TEXT",), "callback": "C",
    "other_agent": "A", "number": "NIP", "words": "N",
}
# The definitions with two lists of operands each.
BY_COUNT = {"register": "register_form", "notify": "count_form"}
SOME_OPERAND = {
    "name": "x", "literal": None, "text": "t", "callback": "c", "agent": "b", "amount": -1, "words": 1,
}
ODD_OPERANDS = [
    None, True, 0, -1, 1.5, 16384, 16385, 9007199254740991, 9007199254740992, -9007199254740991, -9007199254740992,
    18446744073709551616, "", "c", "b", "1", "a b", "x\n", "é", "t" * 32, "t" * 33, "t" * 256, "t" * 257, '"', "\\",
    "~ !", "\x7f", [], ["x"], {}, {"x": 1},
]


class Text:
    """A text of JSON, and whether it has a number that only its spelling tells from a whole one."""

    def __init__(self, text):
        self.is_spelled_oddly = False
        self.value = json.loads(text, parse_float=self.float_of, parse_int=self.int_of)

    def float_of(self, spelled):
        self.is_spelled_oddly |= float(spelled).is_integer()
        return float(spelled)

    def int_of(self, spelled):
        self.is_spelled_oddly |= spelled == "-0"
        return int(spelled)


def is_used_before(value, answer):
    """Whether the fault is that the name of an agent is that of an earlier one."""
    place = re.fullmatch("refused S5 agent ([0-9]+)", answer)
    if not place:
        return False
    names = [agent["name"] for agent in value["agents"]]
    return names[int(place[1])] in names[: int(place[1])]


def wanted(text, answer):
    """Whether the schema has to accept a text with this answer; None where it says nothing of such a text."""
    if answer == "ok":
        return True
    if answer.split(" ")[1] not in SHOWN or is_used_before(text.value, answer):
        return None
    is_fault_of_spelling = answer.startswith("refused S8 ") or answer == "refused S3" and text.value["version"] in (1, 2, 3)
    return text.is_spelled_oddly and is_fault_of_spelling


def texts():
    """Texts and their answers."""
    for source in (refused_texts.tables, refused_texts.unwritten, refused_texts.many_callbacks):
        yield from source()
    for path in sorted(glob.glob(os.path.join(TOP, "examples", "*.json"))):
        with open(path, "rb") as file:
            yield file.read(), "ok"
    for path in sorted(glob.glob(os.path.join(TOP, "tests", "rows", "scripts", "*.txt"))):
        for row in scripts.rows_of(path):
            yield row.plan(), "ok"
    yield re.search(r"\n\n((?:    .*\n)+)", read("docs/PLANS.md"))[1].encode(), "ok"


def read(path):
    with open(os.path.join(TOP, path), encoding="utf-8") as file:
        return file.read()


def operands_of(command):
    """The word of a command of the schema, its operands' definitions, and how many operands it has at least."""
    first, *operands = command["prefixItems"]
    assert command["maxItems"] == len(operands) + 1 and command.keys() == {"prefixItems", "minItems", "maxItems"}
    return first["const"], defined(operands), command["minItems"] - 1


def defined(operands):
    return [operand["$ref"].removeprefix("#/$defs/") for operand in operands]


def commands_of(root):
    """The commands of the schema that stand in jobs alone, and those that stand in callbacks too, but for `try`."""
    *in_jobs, tried, others = root["$defs"]["job_command"]["anyOf"]
    assert [tried, others] == [{"$ref": "#/$defs/tried_collection"}, {"$ref": "#/$defs/command"}]
    return in_jobs, [command for command in root["$defs"]["command"]["anyOf"] if "anyOf" not in command]


def tried_of(root):
    """What stands behind `try`, in jobs alone and in callbacks too: words, their operands' definitions, and how many operands
    each has at least."""
    (tried,) = (command for command in root["$defs"]["command"]["anyOf"] if "anyOf" in command)
    said, *to = tried["prefixItems"]
    assert said["const"] == "try" and defined(to) == ["assigned"] and said["description"].startswith(f"{rows()['try']}: ")
    for forms in ([root["$defs"]["tried_collection"]], tried["anyOf"]):
        parts = ((form["prefixItems"][2:], form["minItems"] - 3, form["maxItems"]) for form in forms)
        yield [(word, defined(operands), least) for (words, *operands), least, most in parts for word in words["enum"]
               if most == len(operands) + 3]


def table():
    """The program's table of commands, as version 3 has it: of each word whether it stands in jobs alone, and the lists of
    operands."""
    text = read("crates/es_reading/specs/Forms.antt")
    modified = re.findall(r'^word_for .* = codes "(\w+)"', read("crates/es_event/specs/Access.antt"), re.M)
    found = {}
    for word, takes in [*re.findall(r'codes "(\w+)"\) then (.*)', text), *((word, "modify_form v") for word in modified)]:
        lines = [takes]
        if word in BY_COUNT:
            lines = re.findall(r"(?:then|else) (takes .*)", text.split(f"{BY_COUNT[word]} n =")[1].split("\n\n")[0])
        elif form := re.match(r"(\w+_form) v", takes):
            lines = re.findall(rf"^{form[1]} (?:Three|v)(?: how)? = (takes.*)", text, re.M)[:1]
        for line in lines:
            jobs, kinds = re.match(r"takes(_in_jobs|) (?:\((.*?) ∷ \[\]\)|\[\]) ", line).groups()
            found.setdefault(word, (bool(jobs), []))[1].append(kinds.split(" ∷ ") if kinds else [])
    return found


def rows():
    """The rows of the table of commands in docs/PLANS.md: of each word what its cell says."""
    cells = re.findall(r"^\| (`[^|]*`) \|[^|]*\|[^|]*\|[^|]*\|$", read("docs/PLANS.md").split("## Commands")[1], re.M)
    return {cell[1:].split("`")[0].split(" ")[0]: cell.replace("`", "") for cell in cells}


def limits():
    """The program's limits, by name."""
    found = re.findall(r"pub const (\w+): \w+ = ([0-9_]+);", read("crates/es_value/src/limits.rt"))
    return {name: int(number.replace("_", "")) for name, number in found}


def plan_of(command, in_callback=False, version=1):
    """A plan with one command, of agent a, which has the callback c; b is another agent."""
    run = [command]
    agent = {"name": "a", "callbacks": {"c": run if in_callback else []}, "jobs": [] if in_callback else [{"run": run}]}
    return {"version": version, "agents": [agent, {"name": "b", "callbacks": {}, "jobs": []}]}


def small_plans(root):
    """Plans with one command: each whole, in a job and in a callback, alone and behind `try`, with one operand too few and too
    many, in each version; with each odd operand at each place, in version 1, and in version 3 where this takes variables for
    numbers; and with each in the places behind `try`."""
    for command in itertools.chain(*commands_of(root)):
        word, names, least = operands_of(command)
        whole = [SOME_OPERAND[TYPES[name]] for name in names]
        for count in range(least - 1, len(whole) + 2):
            some = [word, *(whole + ["x"])[: max(count, 0)]]
            for version, in_callback, before in itertools.product((1, 2, 3), (False, True), ([], ["try", "x"])):
                yield plan_of([*before, *some], in_callback, version)
        for place, odd in itertools.product(range(len(whole)), ODD_OPERANDS):
            for version in (1, 3) if "number" in names else (1,):
                yield plan_of([word, *whole[:place], odd, *whole[place + 1 :]], version=version)
    for odd in ODD_OPERANDS:
        yield plan_of([odd])
        yield plan_of(odd)
        for tried in ([odd], [odd, "new", "x"], ["x", odd, "x"], ["x", "new", odd], ["x", "try", "x", "new", odd]):
            yield plan_of(["try", *tried], version=3)


def verdicts(judges, value, length):
    """Whether a value is accepted, by each judge of texts of this length."""
    return {accepts(value) for accepts, longest in judges if length <= longest}


class Count:
    """How many tests passed and failed."""

    def __init__(self):
        self.passed = self.failed = 0

    def test(self, holds, what):
        self.passed += bool(holds)
        self.failed += not holds
        if not holds:
            print(f"FAILED: {what}")


def test_texts(count, judges):
    for text, answer in texts():
        if answer == "refused S1" or len(text) > LONGEST:
            continue
        read_text = Text(text)
        want = wanted(read_text, answer)
        if want is not None:
            found = verdicts(judges, read_text.value, len(text))
            count.test(found == {want}, f"{answer}, and accepted by the schema {found}: {text[:200]!r}")


def test_table(count, root):
    has, program, told = {}, table(), rows()
    for in_jobs, commands in zip((True, False), commands_of(root)):
        for command in commands:
            word, names, least = operands_of(command)
            kinds = [TYPES[name] for name in names]
            has.setdefault(word, (in_jobs, []))[1].extend(kinds[:length] for length in range(len(kinds), least - 1, -1))
            said = command["prefixItems"][0]["description"]
            row = told.get(word, "no row")
            letters = row.split(", ")[-1].split(" ")[1:]
            is_sentence = re.fullmatch(re.escape(row) + r": [^.]+\.", said)
            count.test(is_sentence, f"{word}: '{row}: ' and a sentence, not '{said}'")
            fit = [letter in LETTERS[name] for letter, name in zip(letters, names)]
            count.test(all(fit) and len(letters) == len(names), f"{row} has the operands {names}")
    for word in sorted(has.keys() | program.keys() | told.keys()):
        found, form = has.get(word), program.get(word)
        count.test(found == form and word in told, f"{word}: {found} in the schema, {form} in the program")


def test_tried(count, root):
    for commands, tried in zip(commands_of(root), tried_of(root), strict=True):
        alone = [*map(operands_of, commands)]
        count.test(sorted(tried) == sorted(alone), f"behind try stand {tried}, and alone {alone}")


def test_limits(count, root):
    defs, most = root["$defs"], limits()
    agent, whole, number = defs["agent"]["properties"], 9007199254740991, defs["number"]["anyOf"][0]
    for what, found, limit in (
        ("agents", root["properties"]["agents"]["maxItems"], most["MOST_AGENTS"]),
        ("callbacks", agent["callbacks"]["maxProperties"], most["MOST_CALLBACKS"]),
        ("jobs", agent["jobs"]["maxItems"], most["MOST_JOBS"]),
        ("commands of a job", defs["job_run"]["maxItems"], most["MOST_COMMANDS"]),
        ("commands of a callback", defs["callback_run"]["maxItems"], most["MOST_COMMANDS"]),
        ("a name", defs["name"]["maxLength"], most["LONGEST_NAME"]),
        ("a text", defs["text"]["maxLength"], most["LONGEST_TEXT"]),
        ("a literal's text", defs["literal"]["maxLength"], most["LONGEST_TEXT"]),
        ("a literal's pattern", defs["literal"]["pattern"], defs["text"]["pattern"]),
        ("words", defs["words"]["maximum"], most["MOST_WORDS"]),
        ("whole numbers", (number["minimum"], number["maximum"]), (-whole, whole)),
        ("a literal's numbers", (defs["literal"]["minimum"], defs["literal"]["maximum"]), (-whole, whole)),
    ):
        count.test(found == limit, f"{what}: {found} in the schema, {limit} in the program")


def test_written(count):
    for name in command_schemas.SCHEMAS:
        found, wanted = command_schemas.written(name)
        count.test(found == wanted, f"docs/{name} is not what tests/documents/command_schemas.py --write makes of it")


def test_program(count, root, judges, program):
    for plan in small_plans(root):
        text = json.dumps(plan).encode()
        run = subprocess.run([program, "check"], input=text, capture_output=True, check=False)
        # A name that nothing has is of no concern to a schema.
        accepted = run.returncode == 0 or run.stderr.startswith(b"refused S6 ")
        found = verdicts(judges, plan, len(text))
        count.test(found == {accepted}, f"{run.stdout + run.stderr}, and accepted by the schema {found}: {text!r}")


def main():
    program = os.path.abspath(sys.argv[1])
    root = json.loads(read("docs/plan.schema.json"))
    judges = [(schema_judges.Schema(root).accepts, LONGEST)]
    if schema_judges.jsonschema:
        judges.append((schema_judges.library(root), LONGEST_FOR_LIBRARY))
    count = Count()
    test_texts(count, judges)
    test_table(count, root)
    test_tried(count, root)
    test_limits(count, root)
    test_written(count)
    test_program(count, root, judges, program)
    print(f"{count.passed} passed, {count.failed} failed")
    return 1 if count.failed else 0


if __name__ == "__main__":
    sys.exit(main())
