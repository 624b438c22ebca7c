"""What a comparison found, in words: the lines that differ, the table, the notes below it, and all of it in JSON."""

import collections
import datetime
import json

from session import MOST_LOOKED_AT
from verdicts import ALLOWED, Kind


def today():
    return datetime.date.today().isoformat()


def counts(session):
    """How many lines of each kind there are, and in how many plans."""
    lines, plans = collections.Counter(), collections.Counter()
    for found in session.found:
        counted = found.verdict.counts() if found.verdict else collections.Counter()
        if found.no_answer is not None:
            counted[Kind.NO_ANSWER] += 1
        lines.update(counted)
        plans.update(dict.fromkeys(counted, 1))
    return lines, plans


def table(session):
    lines, plans = counts(session)
    yield "| Line | Lines | Plans | Rule | Section of ECMA-262 |"
    yield "|---|---|---|---|---|"
    for kind in Kind:
        if lines[kind] or kind in (Kind.SAME, Kind.CONTRADICTION):
            rule, section = ALLOWED.get(kind, ("", ""))
            yield f"| {kind.value} | {lines[kind]} | {plans[kind]} | {rule} | {section} |"


def notes(session):
    """What stands below the table."""
    for rule, section, chances in session.never():
        yield f"over the whole run: {rule}, of {chances} that could ({section})"
    skipped = collections.Counter(found.skipped for found in session.found if found.skipped)
    for reason, count in skipped.items():
        yield f"{count} plans skipped: {reason}"
    yield f"{own_collections(session)} times canaries showed a collection that was not asked for"
    if not session.symbols:
        yield "the engine can't hold symbols weakly, as editions before the 14th have it"
    if not session.report:
        yield "the program is not built: the reports are those of tests/lib/rules.py"
    for found in session.found:
        if found.misreported:
            yield f"{found.name}: the program's report is not that of the rules"


def own_collections(session):
    return sum(found.verdict.own_collections for found in session.found if found.verdict)


def trouble(found):
    """What has to be looked at of one plan, and its shortest form."""
    rule, section = found.trouble()
    what = f"contradiction: {rule} ({section})" if section else f"no answer: {found.no_answer or 'nothing on standard error'}"
    if found.showed_again is False:
        return f"{found.name}: {what}; it did not show again when the plan was run alone"
    return f"{found.name}: {what}; the shortest plan: {found.shortest or '(not shrunk)'}"


def text(session, with_lines):
    if with_lines:
        for found in session.found:
            yield from differing(found)
    troubled = session.troubled()
    yield from map(trouble, troubled[:MOST_LOOKED_AT])
    for (rule, _), count in collections.Counter(found.trouble() for found in troubled[MOST_LOOKED_AT:]).items():
        yield f"{count} plans more: {rule}"
    yield f"{session.engines[0].version}, {len(session.found)} plans, {session.what}, {today()}"
    yield from table(session)
    yield from notes(session)


def as_json(session):
    lines, plans = counts(session)
    whole = {
        "engine": session.engines[0].version, "date": today(), "what": session.what, "plans": len(session.found),
        "skipped": sum(found.skipped is not None for found in session.found),
        "own collections": own_collections(session),
        "never": [{"rule": rule, "section": section, "chances": chances} for rule, section, chances in session.never()],
        "kinds": {kind.value: {"lines": lines[kind], "plans": plans[kind]} for kind in Kind},
        "notes": [*notes(session)],
        "differing": [line_of(found, line) for found in session.found for line in differing_lines(found)],
        "contradictions": [contradiction_of(found) for found in session.contradicted()],
        "no answer": [{"plan": found.name, "said": found.no_answer} for found in session.found if found.no_answer is not None],
    }
    return json.dumps(whole, indent=1)


def differing_lines(found):
    return [line for line in found.verdict.lines if differs(line)] if found.verdict else []


def differs(line):
    """Whether it is worth telling: not where it is the same, nor where no engine has such a line."""
    return line.kind not in (Kind.SAME, Kind.NOT_OBSERVED)


def differing(found):
    for line in differing_lines(found):
        rule, section = ALLOWED.get(line.kind, found.contradiction())
        wanted, said = line.wanted or "(nothing)", line.said or "(nothing)"
        yield f"{found.name}, agent {line.agent}: {line.kind.value}: {wanted} -> {said} ({rule}; {section})"


def line_of(found, line):
    rule, section = ALLOWED.get(line.kind, found.contradiction())
    return {
        "plan": found.name, "agent": line.agent, "kind": line.kind.value, "wanted": line.wanted, "said": line.said,
        "rule": rule, "section": section,
    }


def contradiction_of(found):
    rule, section = found.contradiction()
    shortest = json.loads(found.shortest) if found.shortest else None
    return {"plan": found.name, "rule": rule, "section": section, "shortest": shortest, "showed again": found.showed_again}
