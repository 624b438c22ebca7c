"""Whether what `clusterrun trace` writes is what trace_model.py gives: the traces of rows and of lines of JSON, and the
pictures."""

import itertools
import re

import rules
import trace_forms
import trace_model


# In which order an agent gives up several tickets at once is free, and so is that of the blocks that go by it.
LOOSE = re.compile(r'-.* (spent|released)$|{"ledger":"(spent|released)"')


def model(data):
    """The turns of a plan without a fault, and the names of its agents."""
    cluster = trace_model.Cluster(rules.read_plan(data))
    return [*cluster.turns()], cluster.names


def fault(form, turns, names, is_all, text):
    """What is wrong with the text that is written in this form, or None."""
    if text and not text.endswith("\n"):
        return "the last line does not end"
    lines = text.split("\n")[:-1]
    if isinstance(form, trace_forms.Pictures):
        return fault_of_pictures(form.HEAD, [*form.parts(turns, names)], lines)
    return fault_of_lines(form, form.parts(turns, names), is_all, lines)


def fault_of_lines(form, parts, is_all, lines):
    at = 0
    for part in in_runs(parts):
        if isinstance(part, list):
            got = lines[at : at + len(part)]
            if kinds(got) != kinds(part) or sorted(got) != sorted(part):
                return f"after line {at} stands {got}, not {part}"
            at += len(part)
        else:
            told = [*itertools.takewhile(form.is_kept, lines[at:])]
            if wrong := fault_of_kept(form, part, is_all, told):
                return f"after line {at}: {wrong}"
            at += len(told)
    return f"line {at + 1} is one too many: {lines[at]!r}" if at < len(lines) else None


def in_runs(parts):
    """The same with lines as lists: one by one, but for those that come in any order, which are together as far as they
    follow each other."""
    for is_loose, run in itertools.groupby(parts, lambda part: isinstance(part, str) and bool(LOOSE.match(part))):
        if is_loose:
            yield [*run]
        else:
            yield from ([part] if isinstance(part, str) else part for part in run)


def kinds(lines):
    """What each of these lines tells of: a ticket, a block, or something else."""
    found = [LOOSE.match(line) for line in lines]
    return [match and (match[1] or match[2]) for match in found]


def fault_of_kept(form, heap, is_all, lines):
    told = [form.step_of(line) for line in lines]
    for line, (value, step) in zip(lines, told):
        if line != form.kept(heap.agent, value, step):
            return f"not as it is written: {line!r}"
    return heap.fault(is_all, told)


def fault_of_pictures(head, pictures, lines):
    """Each picture has the lines of the model's: which of its nodes and edges comes first is free, but heads stand first."""
    for number, wanted in enumerate(pictures, 1):
        end = lines.index("}") + 1 if "}" in lines else len(lines)
        got, lines = lines[:end], lines[end:]
        if got[:head] != wanted[:head] or got[-1:] != wanted[-1:]:
            return f"picture {number} begins with {got[:head]} and ends with {got[-1:]}"
        if sorted(got) != sorted(wanted):
            return f"picture {number} lacks {missing(wanted, got)}, and has {missing(got, wanted)} too many"
    return f"one picture too many: {lines[:3]}" if lines else None


def missing(some, others):
    """The lines of the first that are not among the others, each as often."""
    left = [*others]
    return [line for line in some if line not in left or left.remove(line)]


def written(form, turns, names, is_all, choose):
    """The text that the model itself writes; of equally short ways it has those that are chosen."""
    lines = []
    for part in form.parts(turns, names):
        if isinstance(part, str):
            lines.append(part)
        elif isinstance(part, list):
            lines += part
        else:
            lines += [form.kept(part.agent, value, step) for value, step in part.ways(is_all, choose)]
    return "".join(f"{line}\n" for line in lines)
