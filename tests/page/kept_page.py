#!/usr/bin/env python3
"""The page and the module for JavaScript that are kept in play/, beside the program by turns.

Usage: kept_page.py PROGRAM [--long] [--pictures FOLDER]

- The kept files are what play/build.py makes of the kept module, if their sources have not changed since, and the module
  is what it makes of es_library, if the crates below that are built. If they have changed it says so.
- In node: reports and traces of the examples and of 300 random plans, and what tests/page/page_calls.mjs says of the calls. What
  the scripts say of each fault is what `clusterrun explain` says, with the warnings of a plan that has none, and the marked letters
  are those to which its pointer leads.
  What the page makes of traces, words and heaps, is what tests/lib/trace_model.py gives.
- In a browser without a window, from the disk: each example's report is the stored one; its trace, step by step, with the
  picture after each collection and what keeps a value; the marks of faults and of warnings, keys, links, the documents that the
  foot names, the time of 60,000 commands, a run that is stopped, and a plan that takes more memory than there is.

With --long there are 5,000 plans. With --pictures the page is painted, wide and narrow, dark and light. What it left out, for
want of a tool, it says before its last line, `N passed, M failed`.
"""

import argparse
import glob
import hashlib
import json
import os
import random
import re
import shutil
import subprocess
import sys
import zlib

TOP = os.path.dirname(os.path.dirname(os.path.dirname(os.path.abspath(__file__))))
PLAY = os.path.join(TOP, "play")
sys.path[:0] = [os.path.join(TOP, "tests", "lib"), os.path.join(PLAY, "lib")]

import browser
import module
import origin
import page
import page_browser
import page_heap
import running
import third_plans

SCRIPT = os.path.join(PLAY, "clusterrun.mjs")
LARGEST = 1_300_000
# A module with a memory of 64 bits.
WIDE = "process.exit(WebAssembly.validate(Uint8Array.of(0,97,115,109,1,0,0,0,5,3,1,4,1)) ? 0 : 1)"
FLAG = "--experimental-wasm-memory64"


def text_of(name):
    with open(os.path.join(PLAY, name), encoding="utf-8") as file:
        return file.read()


def kept_files(count, left_out, is_long):
    """What is kept beside what would be built. To compile the module anew takes two minutes; so it is done if the library is
    built, as a gate from nothing does not leave it, or with --long."""
    built, code = origin.read(os.path.join(PLAY, "BUILT")), page.kept_module()
    count.expect("the kept module", hashlib.sha256(code).hexdigest(), built["module"])
    count.expect("the page's size", len(text_of("index.html").encode()) < LARGEST, True)
    if origin.checksum(built["kit"]) != built["sources"]:
        left_out.append("the kept page was not built anew, as its sources changed since; './clusterrun page' builds it")
        return
    if built["zlib"] == zlib.ZLIB_RUNTIME_VERSION:
        for name, text in page.files(code, built).items():
            count.expect(f"{name} is what is built", text_of(name) == text, True)
    else:
        left_out.append(f"the files were packed by zlib {built['zlib']}, which is not here")
    library = os.path.join(TOP, "crates", origin.LIBRARY, "out", f"lib{origin.LIBRARY}.a")
    is_there = shutil.which("rt") and origin.kit_name() == built["kit"] and not module.lacking()
    if not is_there or not (is_long or os.path.exists(library)):
        left_out.append("the module was not compiled anew, as its kit or the built es_library is not here")
        return
    anew, _ = module.built()
    count.expect("the module is what is built", hashlib.sha256(anew).hexdigest(), built["module"])


def node():
    """The words that call a node that has memories of 64 bits, or None."""
    path = shutil.which("node")
    for words in ([path], [path, FLAG]) if path else ():
        if subprocess.run([*words, "-e", WIDE], stderr=subprocess.DEVNULL, check=False).returncode == 0:
            return words
    return None


class Module:
    """The kept module in node, asked for plans."""

    def __init__(self, words):
        script = os.path.join(TOP, "tests", "page", "kept_page.mjs")
        self.process = subprocess.Popen([*words, script, SCRIPT], stdin=subprocess.PIPE, stdout=subprocess.PIPE)

    def ask(self, plan):
        self.process.stdin.write(len(plan).to_bytes(4, "little") + plan)
        self.process.stdin.flush()
        return json.loads(self.process.stdout.readline())

    def end(self):
        self.process.stdin.close()
        self.process.wait()


def by_program(program, words, plan):
    """The program's status and what it writes, as the module answers it."""
    status, out, err = running.answer([program, *words], plan)
    return {"status": status, "text": out if status == 0 else err.removesuffix("\n")}


def led_to(said, plan):
    """The value to which the pointer of a fault leads, as JSON, or a key that is wrong; None where it leads to the whole, and of
    S1, which has no pointer."""
    if said.startswith("S1 "):
        return None
    pointer = json.loads(said.split("\n")[0].split(" ", 1)[1])
    if not pointer:
        return None
    value = json.loads(plan)
    parts = [part.replace("~1", "/").replace("~0", "~") for part in pointer.split("/")[1:]]
    for part in parts:
        value = value[int(part)] if isinstance(value, list) else value[part]
    is_key = (parts[-2:-1] == ["callbacks"] and said.startswith("S5 ")) or (said.startswith("S2 ") and " has no member " in said)
    return json.dumps(parts[-1] if is_key else value)


def compare(count, program, asked, name, plan):
    """Counts one plan, and what is said of its fault, with its place."""
    got = asked.ask(plan)
    wanted = {"ran": by_program(program, ["run", "--turns"], plan), "checked": by_program(program, ["check"], plan)}
    wanted["traced"] = [by_program(program, ["trace", "--json", *words], plan) for words in ([], ["--all"])]
    count.expect(f"{name}: {plan[:300]!r}", {key: got[key] for key in wanted}, wanted)
    if "explained" in got:
        _, said, _ = running.answer([program, "explain"], plan)
        count.expect(f"explain of {name}: {plan[:300]!r}", got["explained"], said)
        if got["ran"]["status"] == 1 and (place := led_to(said, plan)) is not None:
            count.expect(f"the mark of {name}: {plan[:300]!r}", json.dumps(json.loads(got["marked"])), place)


def in_node(count, left_out, program, plans):
    words = node()
    if words is None:
        left_out.append("the module in node, as there is no node with 64-bit WebAssembly memory")
        return
    asked = Module(words)
    for path in sorted(glob.glob(os.path.join(TOP, "examples", "*.json"))):
        with open(path, "rb") as file:
            compare(count, program, asked, path, file.read())
    rng = random.Random(plans)
    for number in range(plans):
        compare(count, program, asked, f"plan {number} of {plans}", third_plans.text_of_any(rng))
    asked.end()
    page_heap.try_all(count, words, plans)
    said = subprocess.run(
        [*words, os.path.join(TOP, "tests", "page", "page_calls.mjs"), SCRIPT, os.path.join(TOP, "examples")],
        stdout=subprocess.PIPE, text=True, check=False,
    ).stdout
    numbers = re.search(r"^(\d+) passed, (\d+) failed\n\Z", said, re.M)
    count.passed += int(numbers[1]) if numbers else 0
    if not numbers or numbers[2] != "0":
        count.faults.append(said)


def main():
    parser = argparse.ArgumentParser(description=__doc__, formatter_class=argparse.RawDescriptionHelpFormatter)
    parser.add_argument("program", metavar="PROGRAM")
    parser.add_argument("--long", action="store_true")
    parser.add_argument("--pictures", metavar="FOLDER")
    given = parser.parse_args()
    count, left_out = running.Count(), []
    kept_files(count, left_out, given.long)
    in_node(count, left_out, os.path.abspath(given.program), 5000 if given.long else 300)
    path = browser.found()
    if path is None:
        left_out.append("the page in a browser, as there is no chromium")
    else:
        page_browser.try_all(count, path, given.pictures)
    for what in left_out:
        print(f"Left out: {what}.")
    count.end()


if __name__ == "__main__":
    main()
