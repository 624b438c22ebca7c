#!/usr/bin/env python3
"""The command for node, play/bin.mjs, and what of the script `./clusterrun` goes by it.

Usage: node_command.py

- Words, files and pipes: statuses, standard output and standard error. All that leads to a value, worked out by hand.
- In one process, by node_command.mjs: words that are none; each example's stored report and stored trace; of some the forms of
  a trace, all values too, beside the model of trace_model.py; each row of mistakes.py and some more in words, with their places.
- Warnings: each row of warnings.json, worked out by hand, by `explain`, by `check` and by the calls of the module; which operands are
  variables, beside commands.json.
- Scripts in JavaScript, with a stand-in for what makes plans of them: plans, faults with their marks.
- Scripts beside node's own objects: what is the same, what may differ, and what differs.
- The package: what `npm pack` would pack, its types beside docs/trace.schema.json, and what the module says in a node that is
  not asked for memories of 64 bits.

What it left out, for want of node or npm, it says before its last line, `N passed, M failed`.
"""

import glob
import json
import os
import re
import shutil
import sys
import tempfile

TOP = os.path.dirname(os.path.dirname(os.path.dirname(os.path.abspath(__file__))))
sys.path.insert(0, os.path.join(TOP, "tests", "lib"))

import mistake_rows
import node_package
import running
import trace_check
import trace_forms

PLAY = os.path.join(TOP, "play")
BIN = os.path.join(PLAY, "bin.mjs")
EXAMPLES = os.path.join(TOP, "examples")
JOBS = 4
EMPTY = b'{"version":1,"agents":[{"name":"a","callbacks":{},"jobs":[]}]}'
REPORT = "agent a\nend live 0 awaiting 0 unregistered 0 taken 0\ncluster\nblocks 0 released 0\nmessages posted 0 taken 0 drained 0\n"
# Words that are none of the command line.
MISTAKES = [
    "fly", "help", "--", "-x", "p.json", "--turns", "RUN", "run --fly", "run a b", "run --turns --turns", "run --turns=1", "run --helpers",
    "run --helpers 0", "run --helpers 9", "run --helpers -1", "run --helpers two", "run --watch 1001", "run --watch 1.5", "run --watch=",
    "check --turns", "check a b", "explain --json", "trace --turns", "trace --json --dot", "trace --json --json", "run --all", "plan --json",
    "run __proto__ --toString", "run --engine", "run --engine v8", "run --engine=", "check --engine node", "run --engine node --engine node",
    "trace --why", "trace --why 0", "trace --why one", "trace --why 1000001", "trace --why 1 --why 2", "trace --why 1 --json", "trace --dot --why 1",
    "trace --why 1 --all", "run --why 1",
]
HELPED = ["--help", "-h", "run --help", "trace x -h", "check -h", "explain --help", "plan --help"]
# Parts of a plan with one agent, and the lines of `explain`: what no row of mistakes.txt has.
AGENT = '{"version":1,"agents":[{"name":"a",%s}]}'
LETTERS = "abcdefghijklmnopqrstuvwxyzabcdefghijklmnopqrstuvwxyzabcd"
NO_LETTERS = f'There is no command "{LETTERS[:32]}..".'
SLASH = 'it has "/".'
EXPLAINED = [
    ('"callbacks":{"b/c":[]},"jobs":[]', ['S5 "/agents/0/callbacks/b~1c"', f'"b/c" is no name: {SLASH}', 'found "b/c"']),
    ('"callbacks":{"a":[],"~~1\\n\\"é":[]},"jobs":[]',
     ['S5 "/agents/0/callbacks/~0~01\\n\\"é"', '"~~1\\n\\"é" is no name: it has "~".', 'found "~~1\\n\\"é"']),
    ('"callbacks":{"c":[],"B":[["new"]],"c":[["say","\U0001F600"]]},"jobs":[]',
     ['S7 "/agents/0/callbacks/B/0"', "new takes X, and here are no operands.", 'found ["new"]']),
    ('"callbacks":{},"jobs":[{"run":[["let","a",-0]]}]',
     ['S8 "/agents/0/jobs/0/run/0"', "Operand 2 of let has a point or an exponent, is -0, or is too large: "
      "a number is whole, from -9007199254740991 to 9007199254740991.", 'found ["let","a",-0.0]']),
    ('"callbacks":{},"jobs":[{"run":[["let","a",18446744073709551615]]}]',
     ['S8 "/agents/0/jobs/0/run/0"', "Operand 2 of let is not from -9007199254740991 to 9007199254740991.", 'found ["let","a",18446744073709551615]']),
    ('"callbacks":{},"jobs":[{"run":[["new",1e2,1.50,0.00001,123e18,[1E-9]]]}]',
     ['S7 "/agents/0/jobs/0/run/0"', "new takes X, and here are 5 operands.", 'found ["new",100.0,1.5,0.00001,1.23e+20,[1e-9]]']),
    ('"callbacks":{},"jobs":[{"run":[["say" , 1.5]]}]',
     ['S7 "/agents/0/jobs/0/run/0"', "Operand 1 of say is a name, and here stands a number.", 'found ["say",1.5]']),
    (f'"callbacks":{{}},"jobs":[{{"run":[["{LETTERS}"]]}}]', ['S7 "/agents/0/jobs/0/run/0"', NO_LETTERS, f'found ["{LETTERS}"]']),
    (f'"callbacks":{{}},"jobs":[{{"run":[["{LETTERS}e"]]}}]', ['S7 "/agents/0/jobs/0/run/0"', NO_LETTERS, f'found ["{LETTERS}e"..']),
    (f'"callbacks":{{}},"jobs":[{{"run":[["{LETTERS}eé"]]}}]', ['S7 "/agents/0/jobs/0/run/0"', NO_LETTERS, f'found ["{LETTERS}e..']),
]
UNREAD = "S1 line 1 column 1\nThis { is never closed.\n"
# Makes a plan of a script in which each statement is a new object.
STAND_IN = """import { parse } from "../syntax/parse.mjs";
export function planOf(source, { engine }) {
  const run = parse(source).body.map(() => ["new", "x"]);
  const text = `${JSON.stringify({ version: 1, agents: [{ name: "a", callbacks: {}, jobs: [{ run }] }] }, null, 1)}\\n`;
  if (engine.check(text).status !== 0) throw new Error("no plan");
  return { text };
}
"""
FAULTY = "let a = 1;\n\tlet b; let a;\n"
FAULT = ":2:13: 'a' is declared in this scope already.\n\tlet b; let a;\n\t           ^\n"


def read(*path):
    with open(os.path.join(TOP, *path), encoding="utf-8") as file:
        return file.read()


class Command:
    """The command in node, its file given, with a folder for files."""

    def __init__(self, room, path=BIN):
        self.room, self.words = room, [shutil.which("node"), path]

    def case(self, what, words, wanted, data=b"", **how):
        return what, [*self.words, *words], data, wanted, how

    def file(self, name, data):
        path = os.path.join(self.room, name)
        with open(path, "wb") as file:
            file.write(data)
        return path


def of_words(command):
    """Words, files and standard input."""
    plan = command.file("plan.json", EMPTY)
    faulty = command.file("faulty.json", b"[]")
    traced = "a  agent ends\n-  a ended\n"
    for what, words, data in [
        ("no words", [], EMPTY), ("run", ["run"], EMPTY), ("a file", ["run", plan], b""), ("turns", ["run", "--turns", plan], b""),
        ("a watch", ["run", plan, "--watch", "9"], b""), ("a number behind =", ["run", plan, "--helpers=2"], b""),
        ("a file behind two dashes", ["run", "--", plan], b""),
    ]:
        yield command.case(what, words, (0, REPORT, ""), data)
    yield command.case("check", ["check", plan], (0, "ok\n", ""))
    yield command.case("explain of a plan", ["explain"], (0, "ok\n", ""), EMPTY)
    yield command.case("trace", ["trace", "--all", plan], (0, traced, ""))
    yield command.case("pictures of no collection", ["trace", "--dot", plan], (0, "", ""))
    yield command.case("a line of JSON", ["trace", plan, "--json"], (0, '{"agent":"a","event":"agent ends"}\n{"ledger":"ended","agent":"a"}\n', ""))
    yield command.case("the version", ["--version"], (0, "clusterrun 0.1.0\n", ""))
    for word in ("run", "check", "trace"):
        yield command.case(f"a fault, by {word}", [word, faulty], (1, "", "refused S2\n"))
    yield command.case("an example", ["run", os.path.join(EXAMPLES, "heap.json")], (0, read("examples", "heap.report"), ""))
    yield command.case("no file", ["run", os.path.join(command.room, "missing")], (4, "", "cannot read\n"))
    yield command.case("a folder", ["explain", command.room], (4, "", "cannot read\n"))
    yield command.case("a file that is spelled as an option", ["trace", "--", "--dot"], (4, "", "cannot read\n"))
    yield command.case("explain of a fault", ["explain"], (1, UNREAD, ""), b'{"version":1')


# A plan in which object 1 goes at the second collection, and object 2 is the held value of a registration of it; and its script.
WHY = """{"version": 1, "agents": [
  {"name": "main", "callbacks": {"c": []}, "jobs": [
    {"run": [["new", "o"], ["new", "h"], ["set", "h", "p", "o"], ["weakmap", "m"], ["wmset", "m", "o", "h"], ["registry", "r", "c"],
      ["register", "r", "o", "h", "o"], ["let", "o", null], ["collect"], ["delete", "x", "h", "p"], ["let", "h", null], ["collect"]]}]},
  {"name": "b", "callbacks": {}, "jobs": [{"run": [["buffer", "s", 1], ["new", "t"], ["set", "t", "s", "s"]]}]}]}"""
WHY_1 = """main  after collection 1 (job 1, command 9), object 1 (made as o) has
main    property p of object 2 (h)
main    weakly: key of WeakMap 3 (m)
main    weakly: target of registration 1 of FinalizationRegistry 4 (r)
main    weakly: token of registration 1 of FinalizationRegistry 4 (r)
main  after collection 2 (job 1, command 12): object 1 (made as o) was emptied
b     at its end, SharedArrayBuffer 1 (s) has
b       variable s
b       property s of object 2 (t)
"""
WHY_2 = """main  after collection 1 (job 1, command 9), object 2 (h) has
main    variable h
main    held value of registration 1 of FinalizationRegistry 4 (r)
main    entry of WeakMap 3 (m) under object 1 (made as o), as long as both are reached
main  after collection 2 (job 1, command 12), object 2 (made as h) has
main    held value of registration 1 of FinalizationRegistry 4 (r)
b     at its end, object 2 (t) has
b       variable t
"""
# Of a script with the temporary that a statement has while it collects.
WHY_SCRIPT = b"function f(a) { gc(); }\nf({ b: {} });\n"
WHY_OF_SCRIPT = """main  after collection 1 (job 1, command 4), object 2 (b) has
main    the statement that runs
main    property b of object 1 (a)
"""


def of_why(command):
    """All that leads to a value, by hand; a number of no value is refused with a line."""
    plan = command.file("why.json", WHY.encode())
    for number, wanted in ((1, WHY_1), (2, WHY_2)):
        yield command.case(f"what leads to value {number}", ["trace", "--why", str(number), plan], (0, wanted, ""))
    yield command.case("a number of no value", ["trace", plan, "--why=5"], (2, "", "error: no agent has a value 5: main made 4, b made 2\n"))
    yield command.case("a value of standard input", ["trace", "--why", "1"], (2, "", "error: no agent has a value 1: a made 0\n"), EMPTY)
    yield command.case("why of a plan with a fault", ["trace", "--why", "1"], (1, "", "refused S2\n"), b"[]")
    script = command.file("why.js", WHY_SCRIPT)
    yield command.case("what leads to a value of a script", ["trace", "--why", "2", script], (0, WHY_OF_SCRIPT, ""))


# Lines as clusterrun has them, with why they may be otherwise; node's lines; whether there is any choice; and the table.
COMPARED = [
    ([("a", "x", None), ("a", "y", "why")], ["x", "y"], True, [("same", "x"), ("same", "y")]),
    ([("a", "x", None), ("a", "y", "why"), ("a", "z", None)], ["x", "z"], True, [("same", "x"), ("may differ", "y"), ("same", "z")]),
    ([("a", line, None) for line in "xyz"], list("yzx"), True, [("differs", "x"), ("same", "y"), ("same", "z"), ("may differ", "x")]),
    ([("a", "x", None), ("a", "y", None)], ["y"], True, [("differs", "x"), ("same", "y")]),
    ([("a", "x", None), ("b", "y", None)], ["y", "x"], False, [("same", "x"), ("same", "y")]),
    ([("a", "x", None), ("b", "x", None)], ["x"], False, [("same", "x"), ("differs", "x")]),
    ([("a", "x", "why"), ("a", "y", None)], ["y", "x"], True, [("may differ", "x"), ("same", "y"), ("may differ", "x")]),
    ([("a", "object 3", None)], ["object", "y"], False, [("same", "object 3"), ("differs", "y")]),
]
COMPARE = """
const { compared } = await import(process.argv[1]);
const cases = JSON.parse(process.argv[2]);
const lines = (some) => some.map(([agent, text, may]) => ({ agent, text, may }));
console.log(JSON.stringify(cases.map(([ours, theirs, chosen]) => compared(lines(ours), theirs, chosen).map(({ verdict, text }) => [verdict, text]))));
"""


def of_lines_compared(count):
    """The table of a script's lines beside node's."""
    path = os.path.join(PLAY, "command", "beside.mjs")
    words = ["node", "--input-type=module", "-e", COMPARE, path, json.dumps([case[:3] for case in COMPARED])]
    _, said, err = running.answer(words)
    found = json.loads(said or "[]")
    for number, (*_, wanted) in enumerate(COMPARED):
        count.expect(f"lines {number}", found[number] if number < len(found) else err, [list(row) for row in wanted])


# The collections take node longer than both timers, so the interval comes late, and its next call not at all.
LATE = b"""const timer = setInterval(() => console.log("tick"), 10);
setTimeout(() => { clearInterval(timer); console.log("end"); }, 25);
for (let i = 0; i < 300; i++) gc();
"""


def of_engine(command):
    """Scripts beside node's own objects."""
    lesson = os.path.join(PLAY, "lessons", "weakref-still-answers.js")
    same = "same        "
    yield command.case("a lesson beside node", ["run", lesson, "--engine", "node"],
                       (0, "".join(f"{same}{line}\n" for line in json.loads(read("play", "lessons", "lines.json"))["weakref-still-answers"]["lines"]), ""))
    other = b'console.log(1);\nconsole.log(typeof process);\n'
    yield command.case("a line that differs", ["run", "--engine=node"], (
        1, f"{same}1\ndiffers     undefined\n{' ' * 12}(Node does not write it.)\ndiffers     object\n{' ' * 12}(Node alone writes it.)\n", ""), other)
    # After the call nothing leads to the registry. So node collects it, and with it the callback and what that names.
    unread = b"""function start(target) {
  const cache = {};
  new FinalizationRegistry(() => console.log(cache.size)).register(target, 1);
  return new WeakRef(cache);
}
const target = {};
const ref = start(target);
await turn();
gc();
console.log(ref.deref() ? "there" : "gone");
console.log(typeof target);
"""
    why = "Nothing that runs later reads what 'cache' holds, so an engine may let go of it."
    yield command.case("what nothing reads any more", ["run", "--engine=node"], (
        0, f"may differ  there\n{' ' * 12}({why})\n{same}object\nmay differ  gone\n{' ' * 12}(Node alone writes it.)\n", ""), unread)
    uncaught = b'setTimeout(() => console.log("later"), 0);\nthrow new TypeError("no");\n'
    yield command.case("an exception beside node", ["run", "--engine=node"], (0, f"{same}Uncaught TypeError: no\n{same}later\n", ""), uncaught)
    # What a promise is rejected with, in an agent too, and what an agent's body throws.
    rejected = b'agent("a", async () => { Promise.reject(5); await null; throw new TypeError("body"); });\nPromise.reject(new Error("lost"));\n'
    yield command.case("rejected promises beside node", ["run", "--engine=node"], (
        0, "".join(f"{same}Uncaught {line}\n" for line in ("(in promise) Error: lost", "(in promise) 5", "TypeError: body")), ""), rejected)
    why = f"{' ' * 12}(A timer may come later than its time.)\n"
    yield command.case("a timer that comes late", ["run", "--engine=node"], (0, f"{same}tick\nmay differ  tick\n{why}{same}end\n", ""), LATE)
    plan = command.file("plan_beside.json", EMPTY)
    yield command.case("a plan beside node", ["run", plan, "--engine", "node"],
                       (1, "", f"{plan}: '--engine' takes a script in JavaScript, and this is a plan\n"))


class Asked:
    """Commands that are carried out in one process, and what each is to give."""

    def __init__(self, room):
        self.room, self.words, self.judges = room, [], []

    def add(self, words, judge):
        """The judge is called with the words and their answer."""
        self.words.append(words)
        self.judges.append(judge)

    def ask(self):
        flags = [] if node_package.is_wide() else [node_package.FLAG]
        script = os.path.join(TOP, "tests", "page", "node_command.mjs")
        _, said, err = running.answer(["node", *flags, script], json.dumps(self.words).encode())
        answers = json.loads(said or "[]")
        if len(answers) != len(self.words):
            raise ValueError(f"node_command.mjs gives {len(answers)} answers: {err}")
        for words, judge, answer in zip(self.words, self.judges, answers):
            judge(words, answer)


def of_examples(asked, count):
    """The stored reports and traces, and the forms of a trace beside the model."""
    for path in sorted(glob.glob(os.path.join(EXAMPLES, "*.json"))):
        name = os.path.basename(path).removesuffix(".json")
        for word, kind in (("run", "report"), ("trace", "trace")):
            wanted = {"status": 0, "text": read("examples", f"{name}.{kind}")}
            asked.add([word, path], lambda words, answer, wanted=wanted: count.expect(f"{words}", answer, wanted))
        for form, is_all in [(trace_forms.Rows(), True), (trace_forms.Pictures(), False), (trace_forms.Lines(), False), (trace_forms.Lines(), True)]:
            words = ["trace", path, *form.words, *(["--all"] if is_all else [])]
            asked.add(words, lambda words, answer, form=form, is_all=is_all: formed(count, words, answer, form, is_all))


def formed(count, words, answer, form, is_all):
    with open(words[1], "rb") as file:
        turns, names = trace_check.model(file.read())
    fault = trace_check.fault(form, turns, names, is_all, answer["text"]) if answer["status"] == 0 else answer
    count.add(f"{words}", fault)


def of_faults(asked, count):
    """Faults in words: each row of mistakes.py, and the lines above."""
    rows = [*mistake_rows.written(), *mistake_rows.made(), *((parts, (AGENT % parts).encode(), lines) for parts, lines in EXPLAINED)]
    for number, (name, data, lines) in enumerate(rows):
        path = os.path.join(asked.room, f"faulty{number}.json")
        with open(path, "wb") as file:
            file.write(data)
        asked.add(["explain", path], lambda _, answer, name=name, lines=lines: count.expect(f"explain {name}", said_in(answer, lines), (1, lines)))


def said_in(answer, wanted):
    """The status and the lines; None for a line that may be any."""
    said = answer.get("text", "").split("\n")[:-1]
    free = [None if row < len(wanted) and wanted[row] is None else line for row, line in enumerate(said)]
    return answer.get("status"), free


# What the module answers of plans, each given as a text and, if it is JSON, as an object; and which operands are variables.
WARN = """
import { readFileSync } from "node:fs";
const { explain, warnings } = await import(process.argv[1]);
const { variablesOf } = await import(process.argv[2]);
const { plans, forms } = JSON.parse(readFileSync(0, "utf8"));
const asked = (plan) => [explain(plan).text, warnings(plan)];
const found = plans.map((text) => [asked(text), asked(new TextEncoder().encode(text)), ...(text.endsWith("}") ? [asked(JSON.parse(text))] : [])]);
console.log(JSON.stringify({ found, variables: forms.map(([word, count]) => variablesOf(word, count)) }));
"""
# By the words of a sentence, the cause of a warning.
CAUSES = {"nothing assigns": "unassigned", "is read before": "assigned later", "nothing reads": "unread", "the held value is": "held target"}


def warned_rows():
    """The rows of warnings.json: the name, the plan as a text, the code of its fault or None, and the lines."""
    for row in json.loads(read("tests", "rows", "warnings.json")):
        plan = row["plan"] if isinstance(row["plan"], str) else json.dumps(row["plan"])
        yield row["name"], plan, row.get("fault"), "".join(f"{line}\n" for line in row["lines"])


def of_warnings(asked, count):
    """Warnings by `explain` and by `check`; a plan with a fault has none. The other commands tell none."""
    for number, (name, plan, fault, lines) in enumerate(warned_rows()):
        path = os.path.join(asked.room, f"warned{number}.json")
        with open(path, "w", encoding="utf-8") as file:
            file.write(plan)
        for word, wanted in (("explain", ("ok\n" + lines, "")), ("check", ("ok\n", lines))):
            asked.add([word, path], lambda _, answer, what=f"{word}: {name}", wanted=wanted, fault=fault: warned(count, what, answer, wanted, fault))
        for word in ("run", "trace"):
            asked.add([word, path], lambda _, answer, what=f"{word}: {name}": count.expect(what, "warning" in json.dumps(answer), False))


def warned(count, what, answer, wanted, fault):
    text, error = answer.get("text", ""), answer.get("error", "")
    if fault is None:
        count.expect(what, (answer["status"], text, error), (0, *wanted))
    else:
        said = text + error
        count.expect(what, (answer["status"], fault in said.split("\n")[0], "warning" in said), (1, True, False))


def of_module(count):
    """The same rows by the calls of the module, and what it knows of operands."""
    rows, table = [*warned_rows()], json.loads(read("tests", "rows", "commands.json"))
    bare = {word: row for word, row in table.items() if word != "try"}
    forms = [(word, uses) for word, row in bare.items() for uses in {row["operands"], row["operands"] + row.get("and", "")}]
    flags = [] if node_package.is_wide() else [node_package.FLAG]
    paths = [os.path.join(PLAY, *name) for name in (("explain.mjs",), ("page", "mistakes", "words.mjs"))]
    asked = {"plans": [plan for _, plan, _, _ in rows], "forms": [(word, len(uses)) for word, uses in forms]}
    _, said, err = running.answer(["node", *flags, "--input-type=module", "-e", WARN, *paths], json.dumps(asked).encode())
    if not said:
        count.add("warnings by the module", err or "nothing is said")
        return
    answers = json.loads(said)
    for (name, plan, fault, lines), given in zip(rows, answers["found"], strict=True):
        for explained, answer in given:
            by_module(count, f"the module: {name}", plan, (fault, lines), explained, answer)
    for (word, uses), found in zip(forms, answers["variables"], strict=True):
        wanted = {"read": [at for at, use in enumerate(uses) if use in "vohwmsrbinpq"], "assigned": uses.find("x")}
        count.expect(f"the variables of {word} with {len(uses)} operands", found, wanted)


def by_module(count, what, plan, wanted, explained, answer):
    """One answer of the module: the lines, and the same part by part."""
    fault, lines = wanted
    if fault is not None:
        count.expect(what, (explained.startswith(fault), answer["status"], answer["warnings"]), (True, 1, []))
        return
    count.expect(what, (explained, answer["status"], answer["text"]), ("ok\n" + lines, 0, lines))
    parts = [f"warning {json.dumps(one['pointer'])} {one['sentence']}\n" for one in answer["warnings"]]
    count.expect(f"{what}, part by part", "".join(parts), lines)
    agents = json.loads(plan)["agents"]
    for one in answer["warnings"]:
        cause = next(cause for words, cause in CAUSES.items() if words in one["sentence"])
        agent = agents[int(one["pointer"].split("/")[2])]["name"]
        is_named = one["variable"] in re.findall(r"\w+", one["sentence"])
        count.expect(f"{what}: {one}", (one["cause"], one["agent"], is_named, sorted(one)), (
            cause, agent, True, ["agent", "cause", "pointer", "sentence", "variable"]))


def of_mistakes(asked, count):
    """Words that are none, and words for help."""
    for kind, lines in (("mistake", MISTAKES), ("help", HELPED)):
        for line in lines:
            asked.add(line.split(" "), lambda words, answer, kind=kind: count.expect(
                f"the words {words}", (len(answer), "Usage: clusterrun" in answer.get(kind, "")), (1, True)))


def ends(command, count):
    """How it ends where the words are none, or ask for help."""
    for words in (["fly"], ["run", "--fly"]):
        status, out, err = running.answer([*command.words, *words], EMPTY)
        count.expect(f"the end of {words}", (status, out, "Usage: clusterrun" in err), (2, "", True))
    status, out, err = running.answer([*command.words, "--help"])
    count.expect("the end of help", (status, "Usage: clusterrun" in out, err), (0, True, ""))


def much(command, count):
    """A trace of many rows."""
    jobs = [{"run": [["new", "x"]] * 10000}] * 20
    plan = json.dumps({"version": 1, "agents": [{"name": "a", "callbacks": {}, "jobs": jobs}]})
    status, out, err = running.answer([*command.words, "trace"], plan.encode())
    rows = out.splitlines()
    count.expect("a trace of 200,000 commands", (status, err, len(rows)), (0, "", 20 * 10002 + 2))
    count.expect("its last command", rows[-4:], ["a  new x                             object 200000", "a  job ends", "a  agent ends", "-  a ended"])


def pipes(command, count):
    """Standard output that is full, or that nobody reads, and standard input that comes in parts."""
    node, path = command.words
    large = os.path.join(EXAMPLES, "heap.json")
    for what, script, wanted in [
        ("a full disk", f'"{node}" "{path}" run "{large}" >/dev/full', (4, "", "cannot write\n")),
        ("a pipe that nobody reads", f'{{ sleep 0.5; "{node}" "{path}" run "{large}"; echo $? >&2; }} | true', (0, "", "cannot write\n4\n")),
        ("a slow pipe", f'{{ printf "%s" "$0" | head -c 20; sleep 0.3; printf "%s" "$0" | tail -c +21; }} | "{node}" "{path}"', (0, REPORT, "")),
    ]:
        count.expect(what, running.answer(["sh", "-c", script, EMPTY.decode()]), wanted)


def of_scripts(command):
    """Scripts in JavaScript, in a copy of the command with the stand-in."""
    good, faulty = command.file("good.js", b"let a = 1;\na;\n"), command.file("faulty.mjs", FAULTY.encode())
    plan = {"version": 1, "agents": [{"name": "a", "callbacks": {}, "jobs": [{"run": [["new", "x"], ["new", "x"]]}]}]}
    text = json.dumps(plan, indent=1) + "\n"
    yield command.case("the plan of a script", ["plan", good], (0, text, ""))
    yield command.case("the plan of standard input", ["plan"], (0, text, ""), b"1; 2;")
    yield command.case("a script", ["run", good], (0, REPORT, ""))
    yield command.case("a script, checked", ["check", good], (0, "ok\n", ""))
    yield command.case("a script, explained", ["explain", good], (0, "ok\n", ""))
    yield command.case("a script, traced", ["trace", good], (0, TRACED, ""))
    for word in ("run", "check", "trace", "plan"):
        yield command.case(f"a faulty script, by {word}", [word, faulty], (1, "", faulty + FAULT))
    yield command.case("a faulty script, explained", ["explain", faulty], (1, faulty + FAULT, ""))
    yield command.case("a faulty script of standard input", ["plan"], (1, "", "standard input" + FAULT), FAULTY.encode())
    yield command.case("no script", ["run", os.path.join(command.room, "missing.js")], (4, "", "cannot read\n"))


def copy_of_play(room):
    """A copy of the command in which the stand-in makes the plans."""
    copied = os.path.join(room, "play")
    shutil.copytree(PLAY, copied)
    os.makedirs(os.path.join(copied, "script"), exist_ok=True)
    with open(os.path.join(copied, "script", "plan_of.mjs"), "w", encoding="utf-8") as file:
        file.write(STAND_IN)
    return copied


TRACED = """a  job 1
a  new x                             object 1
a  new x                             object 2
a  job ends
a  agent ends
-  a ended
"""


def by_script(room, count):
    """Scripts by `./clusterrun`, with node and without."""
    path, top = os.path.join(room, "missing.js"), os.path.join(TOP, "clusterrun")
    count.expect("a script by ./clusterrun", running.answer([top, "run", path]), (4, "", "cannot read\n"))
    bare = os.path.join(room, "bare")
    os.mkdir(bare)
    for name in ("sh", "readlink", "dirname"):
        os.symlink(shutil.which(name), os.path.join(bare, name))
    status, out, err = running.answer([os.path.join(bare, "sh"), top, "run", path], env={"PATH": bare})
    count.expect("a script without node", (status, out, "node" in err, err.count("\n")), (125, "", True, 1))


def main():
    count, left_out = running.Count(), []
    if shutil.which("node") is None:
        print("Left out: the command for node, as there is no node.")
        count.end()
    with tempfile.TemporaryDirectory() as room:
        command = Command(room)
        copied = copy_of_play(room)
        of_lines_compared(count)
        count.expect_all([*of_words(command), *of_why(command), *of_engine(command), *of_scripts(Command(room, os.path.join(copied, "bin.mjs")))], JOBS)
        asked = Asked(room)
        of_examples(asked, count)
        of_faults(asked, count)
        of_warnings(asked, count)
        of_mistakes(asked, count)
        asked.ask()
        of_module(count)
        ends(command, count)
        much(command, count)
        pipes(command, count)
        by_script(room, count)
        node_package.try_all(count, room, left_out)
    for what in left_out:
        print(f"Left out: {what}.")
    count.end()


if __name__ == "__main__":
    main()
