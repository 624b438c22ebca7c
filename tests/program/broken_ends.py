#!/usr/bin/env python3
"""Readers and writers that fail: the program says so, by turns, in threads, and watched.

Usage: broken_ends.py PROGRAM [JOBS]. So many runs are made at once (2). Prints each run that ends otherwise, and
`N passed, M failed` last. It needs a C compiler.

The plan is one of two agents that share a block. A library of our own stands before the C library's reads and writes. It
gives the plan by single bytes, and fails at the nth read, for each n until a run meets no failure; or it takes k bytes of
the report and then fails, for each k, up to a report that is taken whole. The same without the library: a file that may
grow to k bytes, a full device, a pipe that is closed after some bytes, standard output and standard error that are
closed.
"""

import errno
import fcntl
import json
import os
import resource
import signal
import subprocess
import sys
import tempfile

TOP = os.path.dirname(os.path.dirname(os.path.dirname(os.path.abspath(__file__))))
sys.path.insert(0, os.path.join(TOP, "tests", "lib"))

import running
from running import WAYS, answer, preloaded

BROKEN = os.path.join(TOP, "tests", "program", "broken_ends.c")
PLAN = json.dumps(
    {
        "version": 1,
        "agents": [
            {"name": "main", "callbacks": {}, "jobs": [{"run": [
                ["buffer", "b", 16384], ["store", "b", 16383, 7], ["post", "worker", "b"], ["let", "b", None], ["collect"],
            ]}]},
            {"name": "worker", "callbacks": {}, "jobs": [{"on": ["main", "m"], "run": [
                ["load", "x", "m", 16383], ["say", "x"], ["load", "x", "m", 16384],
            ]}]},
        ],
    },
    separators=(",", ":"),
).encode()  # fmt: skip
REPORT = """\
agent main
emptied 1
end live 0 awaiting 0 unregistered 0 taken 0
agent worker
say 7
error RangeError: index
end live 0 awaiting 0 unregistered 0 taken 0
cluster
blocks 1 released 1
messages posted 1 taken 1 drained 0
"""
CANNOT_READ = (4, "", "cannot read\n")
CANNOT_WRITE = "cannot write\n"
PAGE = 4096  # the bytes of the smallest pipe


def words_of(program):
    """Each way to use a plan, with what it writes, and what it says beside."""
    yield "checked", [program, "check"], "ok\n", ""
    for way, (options, told) in WAYS.items():
        yield way, [program, "run", *options], REPORT, told


def reads(program, library):
    """Each read fails in turn: those of the plan's bytes, one by one, and the one that finds its end."""
    for way, words, report, told in words_of(program):
        for error in (errno.EIO, errno.EINTR, errno.EAGAIN) if way == "by turns" else (errno.EIO,):
            for number in range(1, len(PLAN) + 3):
                how = {"env": preloaded(library, READ_FROM=0, FAIL_READ=number, WITH=error)}
                want = CANNOT_READ if number <= len(PLAN) + 1 else (0, report, told)
                yield f"{way}, read {number} fails with {errno.errorcode[error]}", words, PLAN, want, how


def writes(program, library):
    """A writer takes each number of bytes and then fails."""
    for way, words, report, told in words_of(program):
        for error in (errno.ENOSPC, errno.EPIPE) if way == "by turns" else (errno.ENOSPC,):
            for taken in range(len(report) + 1):
                how = {"env": preloaded(library, WRITE_TO=1, TAKE=taken, WITH=error)}
                want = (0, report, told) if taken == len(report) else (4, report[:taken], CANNOT_WRITE)
                yield f"{way}, {taken} bytes are taken before {errno.errorcode[error]}", words, PLAN, want, how


def small_file(size):
    """What a child does first whose files may grow to so many bytes."""

    def begin():
        signal.signal(signal.SIGXFSZ, signal.SIG_IGN)
        resource.setrlimit(resource.RLIMIT_FSIZE, (size, size))

    return begin


def try_files(program, room, count):
    """A file that may grow to each number of bytes."""
    for way, (options, told) in WAYS.items():
        for size in [*range(0, len(REPORT), 1 if way == "by turns" else 16), len(REPORT)]:
            path = os.path.join(room, "report")
            with open(path, "wb") as out:
                ran = subprocess.run(
                    [program, "run", *options], input=PLAN, stdout=out, stderr=subprocess.PIPE, preexec_fn=small_file(size),
                    timeout=running.LIMIT, check=False,
                )  # fmt: skip
            with open(path, encoding="ascii") as file:
                got = ran.returncode, file.read(), ran.stderr.decode()
            want = (0, REPORT, told) if size == len(REPORT) else (4, REPORT[:size], CANNOT_WRITE)
            count.expect(f"{way}, a file of {size} bytes", got, want)


def long_plan():
    """A plan with a report that is longer than a pipe holds, and the report."""
    jobs = [{"run": [["say", "x"]] * 1000}]
    plan = {"version": 1, "agents": [{"name": "a", "callbacks": {}, "jobs": jobs}]}
    lines = ["agent a", *["say undefined"] * 1000, "end live 0 awaiting 0 unregistered 0 taken 0"]
    lines += ["cluster", "blocks 0 released 0", "messages posted 0 taken 0 drained 0", ""]
    return json.dumps(plan).encode(), "\n".join(lines)


def through_pipe(program, options, data, size):
    """The program's answer through a small pipe, which is closed after so many bytes of the report."""
    ends = os.pipe()
    fcntl.fcntl(ends[1], fcntl.F_SETPIPE_SZ, PAGE)
    with subprocess.Popen(
        [program, "run", *options], stdin=subprocess.PIPE, stdout=ends[1], stderr=subprocess.PIPE
    ) as child:
        os.close(ends[1])
        child.stdin.write(data)
        child.stdin.close()
        read = b""
        while len(read) < size and (piece := os.read(ends[0], size - len(read))):
            read += piece
        os.close(ends[0])
        errors = child.stderr.read()
        return child.wait(running.LIMIT), read.decode(), errors.decode()


def try_pipes(program, count):
    """A pipe that is closed after some bytes, of which the last leave more unread than it holds."""
    data, report = long_plan()
    for way, (options, told) in WAYS.items():
        for size in (0, 1, 100, PAGE - 1, PAGE, PAGE + 1, len(report) - PAGE - 1):
            got = through_pipe(program, options, data, size)
            count.expect(f"{way}, a pipe of which {size} bytes are read", got, (4, report[:size], CANNOT_WRITE))
        got = through_pipe(program, options, data, len(report))
        count.expect(f"{way}, a pipe that is read to its end", got, (0, report, told))


def try_devices(program, count):
    """A full device and closed ends; and errors that nobody hears, which change no status."""
    closed = {"out": lambda: os.close(1), "err": lambda: os.close(2), "in": lambda: os.close(0)}
    for way, (options, told) in WAYS.items():
        words = [program, "run", *options]
        with open("/dev/full", "wb") as full:
            ran = subprocess.run(words, input=PLAN, stdout=full, stderr=subprocess.PIPE, timeout=60, check=False)
            count.expect(f"{way}, a full device", (ran.returncode, ran.stderr.decode()), (4, CANNOT_WRITE))
            for data, status, report in ((PLAN, 0, REPORT), (b"", 1, "")):
                ran = subprocess.run(words, input=data, stdout=subprocess.PIPE, stderr=full, timeout=60, check=False)
                got = ran.returncode, ran.stdout.decode()
                count.expect(f"{way}, errors on a full device, status {status}", got, (status, report))
        got = answer(words, PLAN, preexec_fn=closed["out"])
        count.expect(f"{way}, closed standard output", got, (4, "", CANNOT_WRITE))
        got = answer(words, PLAN, preexec_fn=closed["err"])
        count.expect(f"{way}, closed standard error", got, (0, REPORT, ""))
        got = answer(words, b"", preexec_fn=closed["err"])
        count.expect(f"{way}, closed standard error and a fault", got, (1, "", ""))
        got = answer(words, b"", preexec_fn=closed["in"])
        count.expect(f"{way}, closed standard input", got, CANNOT_READ)


def main():
    program, count = os.path.abspath(sys.argv[1]), running.Count()
    jobs = int(sys.argv[2]) if len(sys.argv) > 2 else 2
    with tempfile.TemporaryDirectory() as room:
        library = running.built(room, BROKEN)
        count.expect_all(reads(program, library), jobs)
        count.expect_all(writes(program, library), jobs)
        try_files(program, room, count)
    try_pipes(program, count)
    try_devices(program, count)
    count.end()


if __name__ == "__main__":
    main()
