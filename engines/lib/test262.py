"""A plan of one agent as one file in the form of test262."""

import copy
import json
import re
import textwrap

import places
import rules
import worlds

HARNESS = "gcJobs.js"  # beside this in engines/harness; what tests call that collect garbage
HEADER = """\
// Copyright (C) 2026 The Puigend developers. All rights reserved.
// This code is governed by the BSD license found in the LICENSE file."""
MODES = {
    False: "Holds in every conforming engine, whatever it collects and when.",
    True: "Holds in an engine whose forced collection takes all that nothing reaches, and whose host calls all callbacks.",
}
# names that a test needs for itself
TAKEN = set(
    "arguments as async await break case catch class const continue debugger default delete do else enum eval export "
    "extends false finally for from function get if implements import in instanceof interface let new null of package "
    "private protected public return set static super switch this throw true try typeof undefined var void while with "
    "yield assert asyncTest byteLength words value Atomics FinalizationRegistry Object RangeError SharedArrayBuffer Symbol "
    "TypeError Uint32Array WeakMap WeakRef WeakSet callbacksOf cameCallback expectCallbacks isRefused job named nameOf "
    "newName observe trackedRegistry".split()
)
OURS = re.compile(r"given\d+|callback_.*|gcJobs.*")
INHERITED = set(
    "constructor hasOwnProperty isPrototypeOf propertyIsEnumerable toLocaleString toString valueOf __proto__ nameInTest "
    "__defineGetter__ __defineSetter__ __lookupGetter__ __lookupSetter__".split()
)
WORDS = """\
var byteLength = Object.getOwnPropertyDescriptor(SharedArrayBuffer.prototype, "byteLength").get;
function words(buffer) {
  byteLength.call(buffer);
  return new Uint32Array(buffer);
}
"""
INDENT = {"initial_indent": "  ", "subsequent_indent": "  "}
BY_CALL = re.compile(r"\w+\.prototype\.(\w+)\.call\((\w+)(?:, )?")


class Unfit(Exception):
    """A plan that is no test of one agent in ECMAScript."""


def variable(name):
    """The name of a variable of the plan in a test."""
    return f"{name}_" if name.rstrip("_") in TAKEN or OURS.fullmatch(name) else name


def literal(value):
    return "undefined" if value is None else json.dumps(value)


def operand(use, arg):
    """An operand in ECMAScript: a literal, a name or number as it is written, or a variable."""
    if use in "lt":
        return literal(arg)
    if use == "c":
        return f"callback_{arg}"
    return arg if use in "kz" or is_number(use, arg) else variable(arg)


def is_number(use, arg):
    """Whether an index or a number is written, and is no variable."""
    return use in "inpq" and not isinstance(arg, str)


def is_named(value):
    """Whether a value is an object or a symbol of the plan's own, for which a name stands."""
    return value[0] in ("object", "symbol")


def base_name(value):
    """The variable for which a named value was made."""
    return value[1].split(" ")[0]


def primitive(value):
    """A value in ECMAScript that needs no name; None for others."""
    if is_named(value):
        return None
    if value[0] == "registered":
        return f"Symbol.for({json.dumps(value[1])})"
    return rules.printed(value)


def name_of(value):
    """What the harness function `nameOf` gives."""
    return value[1] if is_named(value) else primitive(value)


def implied(condition, others, facts):
    """Whether another condition holds wherever this one does, and allows no more."""
    fact, allowed = condition
    where = [choices for choices in facts if fact in choices]
    return any(all(other in choices for choices in where) and narrow <= allowed for other, narrow in others)


def without(choices, place):
    """These choices, but for the one that is taken at a place."""
    return frozenset(choice for choice in choices if choice[0] != ("gave", place))


def conditions(outcomes, place):
    """What earlier choices leave of the outcomes at a place, where that is less: pairs of a choice and outcomes."""
    earlier = {value: {without(choices, place) for choices in outcome.facts} for value, outcome in outcomes.items()}
    facts = set().union(*earlier.values())
    found = []
    for fact in sorted(set().union(*facts), key=repr):
        allowed = {value for value in outcomes if any(fact in choices for choices in earlier[value])}
        if len(allowed) < len(outcomes):
            found.append((fact, allowed))
    kept = []
    for condition in sorted(found, key=lambda found: (len(found[1]), found[0][0][0] != "gave")):
        if not implied(condition, kept, facts):
            kept.append(condition)
    return kept


class Test:
    """The text of one test."""

    def __init__(self, plan, about, complete):
        self.agent, self.about, self.complete = plan["agents"][0], about, complete
        if len(plan["agents"]) > 1 or any("on" in job for job in self.agent["jobs"]):
            raise Unfit("the plan has several agents")
        if "try" in self.words_of_plan():
            raise Unfit("a caught refusal has the plan's words, and not those of the engine")
        if self.words_of_plan() & {"wait", "notify"}:
            raise Unfit("a test of one agent wakes nobody")
        read = rules.read_plan(json.dumps(plan).encode())
        self.seen = worlds.explore(read, complete, at_once=not self.words_of_plan() & set(rules.COLLECTING))
        self.by_name, self.recorded = set(), {}  # the variables whose values are named; the choices that are kept, by name
        self.checks = {place: [*self.checks_at(place)] for place in self.seen.gave}
        held = set().union(*self.seen.held.values())
        self.by_name |= {base_name(value) for value in held if is_named(value)}
        self.words = {command[0] for place, command in self.commands() if self.is_done(place) or place in self.seen.refused}
        self.collects = "collect" in self.words

    def runs(self):
        """Where each list of commands stands, and the list."""
        yield from ((("job", number), job["run"]) for number, job in enumerate(self.agent["jobs"], 1))
        yield from ((("callback", name), run) for name, run in self.agent["callbacks"].items())

    def commands(self):
        return [((*where, at), command) for where, run in self.runs() for at, command in enumerate(run)]

    def words_of_plan(self):
        return {command[0] for _, command in self.commands()}

    def is_done(self, place):
        return place in self.seen.done

    def command_at(self, place):
        return dict(self.runs())[place[:2]][place[2]]

    def checks_at(self, place):
        """The lines that look at what a command gave: all that it may give, and what an earlier choice leaves of that."""
        outcomes, command = self.seen.gave[place], self.command_at(place)
        name = variable(command[1])
        given = f'Object.keys({name}).join(" ")' if command[0] == "keys" else name
        yield self.assertion(given, {*outcomes}, outcomes)
        for (fact, holds), allowed in conditions(outcomes, place):
            condition = self.condition(fact, holds)
            if condition:
                yield f"if ({condition}) {self.assertion(given, allowed, outcomes)}"

    def condition(self, fact, holds):
        """A choice in ECMAScript, where a test can see it: what a deref gave, after which job a callback came, or that one
        came which no other is like."""
        if fact == worlds.AFTER:
            return f"gcJobs.number === {holds}"
        if fact[0] == "gave":
            name = self.recorded.setdefault(fact[1], f"given{len(self.recorded) + 1}")
            return f"{name} === {'true' if holds else 'false'}"
        alike = [other for other in self.seen.held if self.is_like(other, fact[1])]
        return f"cameCallback({fact[1]})" if alike == [fact[1]] else None

    def is_like(self, registration, other):
        same = self.seen.called[registration] == self.seen.called[other]
        return same and bool(self.seen.held[registration] & self.seen.held[other])

    def assertion(self, given, allowed, outcomes):
        """That a value is one of these: itself where a variable holds it besides, and else by its name."""
        texts = [self.expected(value, outcomes[value].holders) for value in sorted(allowed, key=repr)]
        if None in texts:
            names = sorted(map(name_of, allowed))
            self.by_name |= {base_name(value) for value in allowed if is_named(value)}
            given, texts = f"nameOf({given})", [json.dumps(name) for name in names]
        if len(texts) == 1:
            return f"assert.sameValue({given}, {texts[0]});"
        return f"assert([{', '.join(texts)}].includes({given}));"

    def expected(self, value, holders):
        if value[0] == "keys":
            return json.dumps(value[1])
        return primitive(value) or (variable(min(holders)) if holders else None)

    def statement(self, command, refused=()):
        """A command in ECMAScript. A method of what may be no object of its kind is called as the constructor has it."""
        word, args = command[0], command[1:]
        row = rules.COMMANDS[word]
        if "statement" not in row:
            raise Unfit(f"ECMAScript has no {word}")
        names = [operand(use, arg) for use, arg in zip(row["operands"] + row.get("and", ""), args)]
        text = row["statement"].format(*names, all=", ".join(map(str, names)))
        if not any("TypeError: not a" in reason for reason in refused):
            text = BY_CALL.sub(r"\2.\1(", text).replace("words(", "new Uint32Array(")
        if word == "registry":
            tracked = f'trackedRegistry("{args[1]}", {names[1]})'
            text = f"{names[0]} = {tracked if self.collects else 'new FinalizationRegistry(function () {})'};"
        if word == "new" and self.keys() & INHERITED:
            text = f"{names[0]} = Object.create(null);"
        return self.named(text, args[0]) if word in worlds.MAKING and args[0] in self.by_name else text

    def keys(self):
        """The keys of properties that the plan uses."""
        uses = ((use, arg) for _, command in self.commands() for use, arg in zip(rules.USES[command[0]], command[1:]))
        return {arg for use, arg in uses if use == "k"}

    def named(self, text, name):
        """A statement that makes something, which it gives a name too."""
        target, _, made = text.removesuffix(";").partition(" = ")
        if made == "Symbol()":
            return f'{target} = Symbol(newName("{name}"));'
        return f'{target} = named({made}, "{name}");'

    def lines(self, place, command):
        """The lines of a test for one command, with what it may give, and what it may be refused with."""
        refused = self.seen.refused.get(place, ())
        if not self.is_done(place) and not refused:
            return []  # No execution comes so far.
        if any(text.startswith("limit") for text in refused) or place in self.seen.ours:
            raise Unfit("the plan is refused what ECMAScript does not refuse")
        lines = [] if command[0] in ("say", "keys") else [self.statement(command, refused)]
        lines += self.checks.get(place, []) if self.is_done(place) else []
        lines += [f"{self.recorded[place]} = {variable(command[1])} !== undefined;"] if place in self.recorded else []
        if command[0] == "keys" and refused:
            lines.insert(0, f"Object.keys({variable(command[1])});")
        if not refused:
            return lines
        error = min(text.split(":")[0] for text in refused)
        if not self.is_done(place):
            return [f"assert.throws({error}, function () {{", *indented(lines, 1), "});"]
        return [f"if (isRefused({error}, function () {{", *indented(lines, 1), "})) return isRefused;"]

    def body(self, where, run):
        """The lines of a list of commands. A value that was looked at, and not assigned since, is not looked at again."""
        found, looked_at = [], set()
        for at, command in enumerate(run):
            place = (*where, at)
            variable_seen = worlds.checked_variable(command)
            if command[0] != "say" or command[1] not in looked_at or place in self.seen.refused:
                found.append((command, self.lines(place, command)))
            looked_at -= set(command[1:2])
            looked_at |= {variable_seen} if place in self.seen.gave and variable_seen else set()
        return found

    def text(self):
        return "\n".join([HEADER, *self.front_matter(), "", *(self.in_jobs() if self.collects else self.at_once()), ""])

    def front_matter(self):
        section = self.about["section"]
        identifier = places.esid(section, self.words)
        quote = places.QUOTES.get(identifier, section)
        features = places.features(self.words)
        features |= {"symbols-as-weakmap-keys"} if self.seen.weak_symbols else set()
        includes = ["asyncHelpers.js"] * self.collects + [HARNESS] * bool(self.collects or self.by_name or self.is_torn())
        about = f"{self.about['title']} {self.about['rule']}".rstrip()
        yield from ["/*---", f"esid: {identifier}", "description: >", *textwrap.wrap(about, 110, **INDENT), "info: |"]
        yield from (f"  {line}".rstrip() for line in [*quote.split("\n"), "", MODES[self.complete]])
        yield f"features: [{', '.join(sorted(features))}]" if features else ""
        yield from [f"includes: [{', '.join(includes)}]"] if includes else []
        yield from ["flags: [async]"] if self.collects else []
        yield "---*/"

    def is_torn(self):
        """Whether a command may be refused and may be done."""
        return any(self.is_done(place) for place in self.seen.refused)

    def variables(self):
        """All variables of the lines, but for those of choices."""
        uses = ((use, arg) for place, command in self.commands() if self.is_done(place) or place in self.seen.refused
                for use, arg in zip(rules.USES[command[0]] + rules.ONE_MORE_USE.get(command[0], ""), command[1:]))
        found = {variable(arg) for use, arg in uses if use in "xinpq" + rules.READ and not is_number(use, arg)}
        return sorted(found | ({"held"} if self.callbacks() and self.collects else set()))

    def callbacks(self):
        """The callbacks that registries are made with, by name."""
        made = {command[2] for place, command in self.commands() if command[0] == "registry" and self.is_done(place)}
        return {name: run for name, run in self.agent["callbacks"].items() if name in made}

    def declared(self):
        names = [*self.variables(), *self.recorded.values()]
        yield from [f"let {', '.join(names)};"] if names else []

    def helpers(self):
        used = any("not a SharedArrayBuffer" in text for texts in self.seen.refused.values() for text in texts)
        return WORDS.splitlines() if used else []

    def at_once(self):
        """A test of one job, where nothing is collected."""
        yield from [*self.helpers(), *self.declared(), ""]
        for where, run in self.runs():
            if where[0] == "job":
                yield from (line for _, lines in self.body(where, run) for line in lines)

    def in_jobs(self):
        """A test of several jobs of the host, with collections between their steps."""
        written = [*self.declared()]
        for name, run in self.callbacks().items():
            body = [line for _, lines in self.body(("callback", name), run) for line in lines]
            written += [f"function callback_{name}(value) {{", "  held = value;", *indented(body, 1), "}"]
        if self.seen.comes:
            written += ["expectCallbacks({", *indented(self.expected_callbacks(), 1), "});"]
        came = set()
        for where, run in self.runs():
            if where[0] == "job":
                written += [f"await job({', '.join(self.steps(where, run))});"]
                new, came = self.seen.always[where[1]] - came, self.seen.always[where[1]]
                written += [f"await callbacksOf({', '.join(map(str, sorted(new)))});"] if self.complete and new else []
        written += [f"observe({', '.join(self.variables())});"]
        yield from [*self.helpers(), "asyncTest(async function () {", *indented("\n".join(written).split("\n"), 1), "});"]

    def expected_callbacks(self):
        for number, jobs in sorted(self.seen.comes.items()):
            held = json.dumps(sorted(map(name_of, self.seen.held[number])))
            called = self.seen.called[number]
            yield f'{number}: {{ callback: "{called}", held: {held}, after: {json.dumps(sorted(jobs))} }},'

    def steps(self, where, run):
        """The steps of a job: its collections, and what stands between them."""
        step = []
        for command, lines in self.body(where, run):
            if command[0] != "collect":
                step += lines
            elif lines:
                yield from [function(step)] if step else []
                yield f"function () {{ {lines[0]} }}"
                step = []
        yield from [function(step)] if step else []


def function(lines):
    return "\n".join(["function () {", *indented(lines, 1), "}"])


def indented(lines, levels):
    return [("  " * levels + line) if line else line for line in lines]


def trimmed(plan, seen):
    """The plan without what follows the last thing that a test looks at, where nothing is registered. A complete collector
    is asked besides whether it calls back for what it refused to register."""
    if seen.registered:
        return plan
    looked_at = [place for place in {*seen.gave, *seen.refused} if place[0] == "job"]
    last = max(looked_at, key=lambda place: place[1:], default=("job", 0, 0))
    plan = copy.deepcopy(plan)
    jobs = plan["agents"][0]["jobs"] = plan["agents"][0]["jobs"][: last[1]]
    for job in jobs[-1:]:
        job["run"] = job["run"][: last[2] + 1]
    return plan


def written(plan, about, complete):
    """The text of a test, and the folder of test262 in which it belongs; None where nothing is collected, so that the
    mode of a complete collector asks nothing more. The plan is as JSON has it, with what the corpus says about it."""
    test = Test(plan, about, complete)
    test = test if complete else Test(trimmed(plan, test.seen), about, complete)
    if complete and not test.collects:
        return None
    return test.text(), places.folder(about["section"], test.words)
