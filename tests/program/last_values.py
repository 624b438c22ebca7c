#!/usr/bin/env python3
"""The last values that a plan may have and the first that it may not, and texts that are cut short: what the program
answers to each, checked, by turns, in threads, and in threads beside a watcher who makes 1000 audits. All answers were
worked out by hand from the format and the rules.

Usage: last_values.py PROGRAM [JOBS]. So many runs are made at once (2). Prints each run that ends otherwise, and
`N passed, M failed` last.
"""

import json
import os
import sys

TOP = os.path.dirname(os.path.dirname(os.path.dirname(os.path.abspath(__file__))))
sys.path.insert(0, os.path.join(TOP, "tests", "lib"))

import running
import scripts

END = "end live 0 awaiting 0 unregistered 0 taken 0"


def agent(name, *jobs):
    """An agent with these jobs, each of commands in words, behind `on SENDER VARIABLE:` where it waits."""
    return {"name": name, "callbacks": {}, "jobs": [job_of(job) for job in jobs]}


def job_of(job):
    if isinstance(job, list):
        return {"run": job}
    on, separator, run = job.rpartition(":")
    return {**({"on": on.split()[1:]} if separator else {}), "run": scripts.commands(run)}


def plan(*agents):
    return json.dumps({"version": 1, "agents": agents}, separators=(",", ":")).encode()


def report(cluster, *agents):
    """The report of agents, each a name and its lines, and of a cluster: blocks, released, posted, taken, drained."""
    blocks, released, posted, taken, drained = cluster.split()
    lines = [line for name, *said in agents for line in (f"agent {name}", *said, END)]
    lines += ["cluster", f"blocks {blocks} released {released}"]
    return "\n".join([*lines, f"messages posted {posted} taken {taken} drained {drained}", ""])


WORKER = plan(
    agent("main", "buffer b 16384; store b 16383 7; post worker b; let b null; collect"),
    agent("worker", "on main m: load x m 16383; say x; load x m 16384"),
)
MANY = [[["new", "o"]] * 10000] * 100  # jobs that make each value that an agent can make
NAMES = "abcdefghi"


def beginnings():
    """A plan of two agents that share a block, and each proper beginning of it."""
    for end in range(len(WORKER)):
        yield f"the first {end} bytes", WORKER[:end], "refused S1"
    said = "emptied 1"
    yield "the whole plan", WORKER, report("1 1 1 1 0", ("main", said), ("worker", "say 7", "error RangeError: index"))


def texts():
    """Texts that are no JSON in UTF-8."""
    for wrong in (b"\xff", b"\xc3", b"\xed\xa0\x80", b"\xc0\xaf", b"\xf4\x90\x80\x80"):
        yield f"bytes that are no UTF-8: {wrong}", WORKER.replace(b"main", wrong), "refused S1"
    for text in (b"[" * 1000 + b"]" * 1000, b'{"a":' * 1000 + b"1" + b"}" * 1000, b"[" * 1000, b"[" * 1000000):
        yield f"{len(text)} bytes of deep nesting", text, "refused S1"
    deep = b'["let","x",' + b"[" * 1000 + b"]" * 1000 + b"]"
    yield "an operand nested 1,000 deep", plan(agent("a", [["say", "x"]])).replace(b'["say","x"]', deep), "refused S1"


def numbers_of_parts():
    """As many agents, jobs, callbacks and commands as there may be, and one more."""
    yield "8 agents", plan(*map(agent, NAMES[:8])), report("0 0 0 0 0", *([name] for name in NAMES[:8]))
    yield "9 agents", plan(*map(agent, NAMES)), "refused S4"
    yield "no agent", plan(), "refused S4"
    for jobs, answer in ((1000, report("0 0 0 0 0", ["a"])), (1001, "refused S10 agent 0")):
        yield f"{jobs} jobs", plan(agent("a", *[[]] * jobs)), answer
        calls = {**agent("a"), "callbacks": {f"c{number}": [] for number in range(jobs)}}
        yield f"{jobs} callbacks", plan(calls), answer
    run = [["copy", "x", "y"]] * 10001
    yield "a job of 10,000 commands", plan(agent("a", run[:10000])), report("0 0 0 0 0", ["a"])
    yield "a job of 10,001 commands", plan(agent("a", run)), "refused S10 agent 0 job 1"
    calls = {**agent("a"), "callbacks": {"c": run[:10000]}}
    yield "a callback of 10,000 commands", plan(calls), report("0 0 0 0 0", ["a"])
    yield "a callback of 10,001 commands", plan({**calls, "callbacks": {"c": run}}), "refused S10 agent 0 callback 1"


def operands():
    """Operands that are the last to be accepted, or the first that are not."""
    at = "agent 0 job 1 command 1"
    for words, blocks, answer in (
        (16384, 1, None), (16385, 0, f"refused S10 {at}"), (0, 1, None), (-1, 0, f"refused S10 {at}"),
        ("4", 0, f"refused S7 {at}"), (1.5, 0, f"refused S8 {at}"), (9007199254740992, 0, f"refused S8 {at}"),
    ):  # fmt: skip
        answer = answer or report(f"{blocks} {blocks} 0 0 0", ["a"])
        yield f"a buffer of {words!r} words", plan(agent("a", [["buffer", "b", words]])), answer
    yield "a name of 32 bytes", plan(agent("a", [["new", "n" * 32]])), report("0 0 0 0 0", ["a"])
    yield "a name of 33 bytes", plan(agent("a", [["new", "n" * 33]])), f"refused S5 {at}"
    for text, answer in (("t" * 256, f'say "{"t" * 256}"'), ("t" * 257, None)):
        answer = report("0 0 0 0 0", ["a", answer]) if answer else f"refused S8 {at}"
        yield f"a text of {len(text)} bytes", plan(agent("a", [["let", "x", text], ["say", "x"]])), answer
    for number in (9007199254740991, -9007199254740991):
        said = report("0 0 0 0 0", ["a", f"say {number}"])
        yield f"the number {number}", plan(agent("a", f"let x {number}; say x")), said
        beyond = number + (1 if number > 0 else -1)
        yield f"the number {beyond}", plan(agent("a", f"let x {beyond}; say x")), f"refused S8 {at}"


def values():
    """The last value that an agent can make, and the first that it can't."""
    limit = "error limit: values"
    for word in ("new o", "symbol o", "weakmap o", "weakset o", "buffer o 1", "weakref w o"):
        yield f"{word} past the last value", plan(agent("a", *MANY, word)), report("0 0 0 0 0", ["a", limit])
    last = [*MANY[1:], MANY[0][1:], "new x; say x"]
    yield "the last value", plan(agent("a", *last)), report("0 0 0 0 0", ["a", "say object 1000000"])
    received = plan(agent("a", "buffer b 0; post w b"), agent("w", *MANY, "on a m: say m"))
    yield "a received buffer past the last value", received, report("1 1 1 1 0", ["a"], ["w", limit])
    received = plan(agent("a", "buffer b 0; post w b"), agent("w", *last[:-1], "on a m: say m"))
    yield "a received buffer that is the last value", received, report("1 1 1 1 0", ["a"], ["w", "say object 1000000"])


def messages():
    """As many messages and blocks as an agent has, and one more; waits in vain."""
    posts = [["post", "w", "x"]] * 10000
    told = report("0 0 10000 0 10000", ["a", "error limit: posts"], ["w"])
    yield "the 10,001st message", plan(agent("a", posts, "post w x"), agent("w")), told
    told = report("0 0 10000 0 10000", ["a"], ["w"])
    yield "the 10,000th message", plan(agent("a", posts[1:], "post w x"), agent("w")), told
    blocks = [["buffer", "b", 16384]] * 256
    yield "the 256th block", plan(agent("a", blocks)), report("256 256 0 0 0", ["a"])
    yield "the 257th block", plan(agent("a", blocks, "buffer b 0")), report("256 256 0 0 0", ["a", "error limit: blocks"])
    told = report("0 0 0 0 0", ["a", "error TypeError: not an object"], ["w", "skipped 1"])
    yield "a job that ends before it posts", plan(agent("a", "set x p x; post w x"), agent("w", "on a m: say m")), told
    told = report("0 0 0 0 0", *([name, "skipped 1"] for name in "abc"))
    yield "a ring of three", plan(agent("a", "on b m:"), agent("b", "on c m:"), agent("c", "on a m:")), told
    names = NAMES[:8]
    waits = [agent(name, f"on {names[(number + 1) % 8]} m:") for number, name in enumerate(names)]
    yield "a ring of eight", plan(*waits), report("0 0 0 0 0", *([name, "skipped 1"] for name in names))


def cases(program):
    """Each text in each way: what it is, the words, the bytes and the answer."""
    for source in (beginnings, texts, numbers_of_parts, operands, values, messages):
        for what, data, answer in source():
            refused = (1, "", f"{answer}\n") if answer.startswith("refused") else None
            yield f"{what}, checked", [program, "check"], data, refused or (0, "ok\n", ""), {}
            for way, (options, told) in running.WAYS.items():
                yield f"{what}, {way}", [program, "run", *options], data, refused or (0, answer, told), {}


def main():
    count = running.Count()
    count.expect_all(cases(os.path.abspath(sys.argv[1])), int(sys.argv[2]) if len(sys.argv) > 2 else 2)
    count.end()


if __name__ == "__main__":
    main()
