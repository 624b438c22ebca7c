"""Runs plans on an engine, many in one process; one that ends it, or takes too long, is left out of the next process."""

import json
import os
import select
import subprocess
import tempfile

SECONDS_TO_END = 20.0
AT_ONCE = 100  # so many plans are run by one process: their texts are on its heap, and take its collections time
MOST_TOLD = 400  # so much is told of what an engine wrote on standard error
PROBE = '{"version":1,"agents":[{"name":"a","callbacks":{},"jobs":[{"run":[["symbol","s"],["weakref","w","s"]]}]}]}'


def shortened(text):
    """The beginning and the end of what an engine wrote, without empty lines and those of a stack."""
    lines = [line.strip() for line in text.splitlines()]
    text = "\n".join(line for line in lines if line and not line.startswith("at ") and line != "^")
    return text if len(text) <= MOST_TOLD else f"{text[: MOST_TOLD // 2]} .. {text[-MOST_TOLD // 2 :]}"


def lines_from(pipe, seconds):
    """The lines that come through a pipe, until it ends, or nothing comes for so many seconds."""
    left = b""
    while select.select([pipe], [], [], seconds)[0]:
        read = os.read(pipe.fileno(), 1 << 16)
        if not read:
            return
        *lines, left = (left + read).split(b"\n")
        yield from lines


def end(ran):
    """Ends an engine that may go on still: it is asked to first, since a page's host has a browser to end."""
    ran.terminate()
    try:
        ran.communicate(timeout=SECONDS_TO_END)
    except subprocess.TimeoutExpired:
        ran.kill()
        ran.communicate()


def lines_of(engine, texts, scripts=()):
    """The lines that the engine wrote for these plans, as far as it came, and what it wrote on standard error."""
    with tempfile.TemporaryFile() as plans, tempfile.TemporaryFile() as errors:
        plans.write("".join(f"{text}\n" for text in texts).encode())
        plans.seek(0)
        ran = subprocess.Popen(engine.words_with(scripts), stdin=plans, stdout=subprocess.PIPE, stderr=errors)
        said = [line.decode(errors="replace") for line in lines_from(ran.stdout, engine.seconds)]
        end(ran)
        errors.seek(0)
        others = [line for line in said if not line.startswith("{")]  # a shell may tell of its errors there
        return [line for line in said if line.startswith("{")], errors.read().decode(errors="replace") + "\n".join(others)


def answers(engine, texts, scripts=()):
    """For each plan, a text in one line, what the engine answered: its agents' lines, or why it skipped the plan, or
    what it wrote on standard error where it gave no answer."""
    found = []
    while len(found) < len(texts):
        some = texts[len(found) : len(found) + AT_ONCE]
        lines, err = lines_of(engine, some, scripts)
        found += [json.loads(line) for line in lines]
        if len(lines) < len(some):
            found.append({"none": shortened(err)})
    return found
