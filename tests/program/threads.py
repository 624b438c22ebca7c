#!/usr/bin/env python3
"""Plans without races, whose agents the program runs in threads: each report must be that of the same plan by turns.

Usage: threads.py PROGRAM COUNT SEED [--jobs N]
       threads.py PROGRAM COUNT SEED --helpers N,N.. [--jobs N]
       threads.py PROGRAM --waking RUNS
The gate runs 300 of the first; more of them, and the others, are run by hand. Each prints every run that differs, and
`N passed, M failed` last. A run that has not ended after a minute has failed.

The first tries COUNT random plans, N of them at a time (1), and prints how many had what. Each is run by turns, in
threads, and in threads beside a watcher, who makes a number of audits that is drawn too, as is that of the helpers. Status, report and what stands
on standard error must be the same, but for the line `audits K`, which must stand there after a watched run that went
well. The plan of a number is the same for each N.

The plans are those of raceless_plans.py. None has a race, so that its report is the same in whatever order the threads
go on. Most are plans of agents that share, from random_plans.py, in which each agent has words of its own in every
block (`apart`): of three agents the first has those whose indexes can be divided by 3, and the next those that follow
them. In others blocks go from hand to hand (`handed_on`): an agent uses any word of a block, but only from taking it to
posting it on. The rest are of agents that have nothing to do with each other.
Some agents wait at words of their own, where nobody notifies: who falls asleep there goes on when no agent can.

After the random plans comes one run in which an agent waits while another collects again and again: the program may
take little more of the processors' time for it than by turns, as who waits sleeps. The better of up to PAIRS pairs of
runs counts, since the same work takes more time on a machine that does much else.

Then comes one in which an agent stores a word, posts right after it and goes on working, and the agent that slept till then
works too. Both threads must take processors' time at once, in LEAST_LOOKS looks at the least: one that is woken only at the
other's end takes none before. What else the machine does makes these looks longer, and changes nothing else.

The second runs the same plans in threads with each of these numbers of helpers; the report must be that of rules.py.

The third runs five plans RUNS times each, in which little is done and threads wake each other: two agents that post
to and fro, a ring of eight, and eight that wait in vain again and again, until the first skips a job and posts; and two
and eight agents that sleep at words by turns, each until the one before notifies. No run may take ten times as long as
the plan's median: a thread that is not woken can hang, or show so. Other load on the machine shows so too, and so each
is followed by a run by turns, whose times are printed, and no more. On a virtual machine the host may take processors
away (`steal` in /proc/stat). So the runs are made by twenties, and where the host took more than a fiftieth of our
processors' time during one, the reports of these runs must be right too, but their times do not count, and twenty more
are made. How many did not count is printed.
"""

import argparse
import collections
import functools
import json
import multiprocessing
import os
import random
import re
import resource
import statistics
import subprocess
import sys
import tempfile
import time

TOP = os.path.dirname(os.path.dirname(os.path.dirname(os.path.abspath(__file__))))
sys.path.insert(0, os.path.join(TOP, "tests", "lib"))

import raceless_plans
import random_plans
import rules

LIMIT = 300  # the seconds of a run
TOGETHER = 20  # the runs whose times count or do not count together
PAIRS = 5
MOST_TIME = 1.5  # how many times the processors' time of the run by turns a run with one that waits may take
LOOK = 0.05  # the seconds between two looks at the threads' times
LEAST_LOOKS = 10  # in how many looks both threads are to have worked
MOST_STOLEN = 0.02  # the part of our processors' time that the host may take where times count
AUDITS = [1, 2, 5, 20, 100, 1000]
HELPERS = [1, 2, 3, 8]
# what a plan may have, as what its report then has
PARTS = {**random_plans.PARTS, "refused commands": r"^error ", "sleeps in vain": r'^say "timed-out"$'}


def answer(program, data, *options):
    """The status, what was written, and what stands on standard error; or that the run did not end."""
    try:
        ran = subprocess.run([program, "run", *options], input=data, capture_output=True, timeout=LIMIT, check=False)
    except subprocess.TimeoutExpired:
        return f"no end after {LIMIT} seconds"
    return ran.returncode, ran.stdout.decode(), ran.stderr.decode()


def went_well(ran):
    """Whether a run by turns ended as one can: with a report, or with a fault of its plan."""
    return ran[0] == 0 and ran[2] == "" or ran[0] == 1 and ran[1] == ""


def try_plan(program, seed, number):
    """What is to be printed of the plan of this number, if anything, and what the plan had."""
    rng = random.Random(f"{seed} {number}")
    data, audits = json.dumps(raceless_plans.random_plan(rng)).encode(), rng.choice(AUDITS)
    want = answer(program, data, "--turns")
    if not went_well(want):
        return f"plan {number} of seed {seed} by turns: {data!r}\n  got {want}", []
    helpers = ["--helpers", str(rng.choice(HELPERS))]
    watched = ["--watch", str(audits), *helpers]
    said = ""
    for options, told in [(helpers, want[2]), (watched, f"audits {audits}\n" if want[0] == 0 else want[2])]:
        got = answer(program, data, *options)
        if got != (*want[:2], told):
            words = " ".join(["in threads", *options])
            said += f"plan {number} of seed {seed} {words}: {data!r}\n  wanted {(*want[:2], told)}\n  got {got}\n"
    had = [part for part, line in PARTS.items() if re.search(line, want[1], re.MULTILINE)]
    return said.rstrip("\n"), had + ["faults"] * want[0]


def try_helped(program, helpers, seed, number):
    """The same where the plan runs with each of these numbers of helpers, and its report is by the rules."""
    data = json.dumps(raceless_plans.random_plan(random.Random(f"{seed} {number}"))).encode()
    want = rules.answer(data)
    said = ""
    for few in helpers:
        got = answer(program, data, "--helpers", few)
        if got != want:
            said += f"plan {number} of seed {seed} with {few} helpers: {data!r}\n  wanted {want}\n  got {got}\n"
    had = [part for part, line in PARTS.items() if re.search(line, want[1], re.MULTILINE)]
    return said.rstrip("\n"), had + ["faults"] * want[0]


def try_plans(trial, count, jobs):
    """How many plans failed."""
    failed, have = 0, collections.Counter(dict.fromkeys([*PARTS, "faults"], 0))
    with multiprocessing.Pool(jobs) as pool:
        for said, had in pool.imap_unordered(trial, range(count), 20):
            have.update(had)
            if said:
                failed += 1
                print(said, flush=True)
    print(f"of {count} plans: " + ", ".join(f"{part} {number}" for part, number in have.items()))
    return failed


def ring(agents, posts):
    """A block that goes round until it was posted so often; who takes it adds to its word and says what it was."""
    names = [f"a{number}" for number in range(agents)]
    jobs = {name: [] for name in names}
    jobs[names[0]].append({"run": [["buffer", "m", 1], ["post", names[1], "m"]]})
    for number in range(1, posts + 1):
        before, here, after = (names[at % agents] for at in (number - 1, number, number + 1))
        posted = [["post", after, "m"]] * (number < posts)
        jobs[here].append({"on": [before, "m"], "run": [["add", "x", "m", 0, 1], ["say", "x"], *posted]})
    return raceless_plans.plan_of(jobs)


def skips(agents, rounds):
    """Each round begins where all wait: the first for the last, which never posts, and each other for the one before.
    The first skips its job and posts, and the message goes to the last."""
    names = [f"a{number}" for number in range(agents)]
    jobs = {name: [] for name in names}
    for place, name in enumerate(names):
        posted = [["post", names[place + 1], "m"]] if place + 1 < agents else []
        waits = {"on": [names[place - 1], "m"], "run": posted if place else []}
        jobs[name] += [waits, {"run": [["let", "m", 1], *posted]} if place == 0 else {"run": [["say", "m"]]}] * rounds
    return raceless_plans.plan_of(jobs)


def wakings(agents, rounds):
    """In each round each agent but the first sleeps at a word of its own until the one before has stored there and
    notified, and then does so for the next; the first begins, and sleeps till the last has come round."""
    names = [f"a{number}" for number in range(agents)]
    jobs = {name: [{"on": [names[0], "m"], "run": []}] for name in names[1:]}
    posts = [["post", name, "m"] for name in names[1:]]
    jobs = {names[0]: [{"run": [["buffer", "m", agents * rounds], *posts]}], **jobs}
    for number in range(rounds):
        words = [agents * number + place for place in range(agents)]
        for place, name in enumerate(names):
            sleeps = [["wait", "x", "m", words[place], 0], ["load", "y", "m", words[place]], ["say", "y"]]
            following = words[(place + 1) % agents]
            wakes = [["store", "m", following, 1], ["notify", "n", "m", following]]
            jobs[name].append({"run": [*sleeps, *wakes] if place else [*wakes, *sleeps]})
    return {**raceless_plans.plan_of(jobs), "version": 3}


def timed(program, data, *options):
    """The answer, and how many seconds it took."""
    started = time.monotonic()
    got = answer(program, data, *options)
    return got, time.monotonic() - started


def processor_time(program, data, *options):
    """The answer, and how many seconds of processors it took."""
    before = resource.getrusage(resource.RUSAGE_CHILDREN)
    got = answer(program, data, *options)
    after = resource.getrusage(resource.RUSAGE_CHILDREN)
    return got, after.ru_utime + after.ru_stime - before.ru_utime - before.ru_stime


def try_sleeping(program):
    """1 where an agent that waits for one that collects takes processors' time all the while, else 0."""
    chain = [["new", "a"]] + [["new", "b"], ["set", "b", "p", "a"], ["copy", "a", "b"]] * 2000
    works = [{"run": chain}, {"run": [["collect"]] * 5000}, {"run": [["let", "x", 1], ["post", "w", "x"]]}]
    data = json.dumps(raceless_plans.plan_of({"a": works, "w": [{"on": ["a", "m"], "run": [["say", "m"]]}]})).encode()
    ratios = []
    while len(ratios) < PAIRS:
        want, turns = processor_time(program, data, "--turns")
        got, threads = processor_time(program, data)
        if got != want or want[0] != 0:
            print("an agent that waits while another collects: in threads another answer than by turns")
            return 1
        ratios.append(threads / turns)
        if ratios[-1] < MOST_TIME:
            return 0
    print(f"an agent that waits takes processors' time: {ratios} times that of the run by turns")
    return 1


def thread_times(process):
    """The processors' time of each thread of a process so far, in clock ticks."""
    times, folder = {}, f"/proc/{process}/task"
    try:
        for thread in os.listdir(folder):
            with open(f"{folder}/{thread}/stat", encoding="ascii") as file:
                row = file.read().rsplit(")", 1)[1].split()
            times[thread] = int(row[11]) + int(row[12])
    except OSError:
        pass  # a thread, or all, has ended meanwhile
    return times


def looks_together(program, data):
    """In how many looks two threads or more of a run had taken processors' time since the look before."""
    looks, before = 0, {}
    with tempfile.TemporaryFile() as plan:
        plan.write(data)
        plan.seek(0)
        with subprocess.Popen([program, "run"], stdin=plan, stdout=subprocess.DEVNULL, stderr=subprocess.DEVNULL) as ran:
            ends = time.monotonic() + LIMIT
            while ran.poll() is None and time.monotonic() < ends:
                time.sleep(LOOK)
                now = thread_times(ran.pid)
                looks += sum(now[thread] > before.get(thread, 0) for thread in now) > 1
                before = now
            ran.kill()
    return looks


def try_waking_at_once(program):
    """1 where an agent that is posted to right after a store is woken only at the sender's end, else 0."""
    chain = [["new", "a"]] + [["new", "b"], ["set", "b", "p", "a"], ["copy", "a", "b"]] * 2000
    rests, works = {"run": [["collect"]] * 1000}, [{"run": [["collect"]] * 10000}] * 2
    posts = {"run": [["buffer", "m", 1], ["let", "x", 1], ["store", "m", 0, 7], ["post", "w", "x"]]}
    waits = {"on": ["a", "x"], "run": []}
    data = json.dumps(raceless_plans.plan_of({"a": [{"run": chain}, rests, posts, *works], "w": [{"run": chain}, waits, *works]})).encode()
    looks = [looks_together(program, data)]
    while max(looks) < LEAST_LOOKS and len(looks) < PAIRS:
        looks.append(looks_together(program, data))
    if max(looks) < LEAST_LOOKS:
        print(f"an agent that is posted to right after a store works beside the sender in {looks} looks alone")
        return 1
    return 0


def stolen():
    """For how many seconds the host took our processors away since the machine began; 0 where none says."""
    ours = {f"cpu{number}" for number in os.sched_getaffinity(0)}
    try:
        with open("/proc/stat", encoding="ascii") as file:
            rows = [line.split() for line in file]
        return sum(int(row[8]) for row in rows if row[0] in ours) / os.sysconf("SC_CLK_TCK")
    except (OSError, IndexError, ValueError):
        return 0


def show_times(what, seconds):
    median, longest = statistics.median(seconds), max(seconds)
    print(f"{what}: median {median:.4f} s, maximum {longest:.4f} s, ratio {longest / median:.1f}", flush=True)


def try_some(program, name, data, threads, turns):
    """Makes TOGETHER runs, with their times put last into the lists, and gives how many had another report."""
    failed = 0
    for _ in range(TOGETHER):
        got, seconds = timed(program, data)
        threads.append(seconds)
        want, seconds = timed(program, data, "--turns")
        turns.append(seconds)
        if got != want or want[0] != 0:
            failed += 1
            print(f"{name}: by turns {want}\n  in threads {got}", flush=True)
    return failed


def try_waking(program, name, plan, runs):
    """How many of these runs failed."""
    data = json.dumps(plan).encode()
    threads, turns, failed, disturbed = [], [], 0, 0
    while len(threads) < runs:
        before, started = stolen(), time.monotonic()
        more = [], []
        failed += try_some(program, name, data, *more)
        time.sleep(0.02)  # what was taken is counted a little later
        had = (time.monotonic() - started) * len(os.sched_getaffinity(0))
        if stolen() - before > MOST_STOLEN * had:
            disturbed += TOGETHER
        else:
            threads += more[0]
            turns += more[1]
    limit = 10 * statistics.median(threads)
    for seconds in threads:
        if seconds >= limit:
            failed += 1
            print(f"a run of {name} took {seconds:.4f} s in threads")
    show_times(f"{name} in threads, {len(threads)} runs", threads)
    show_times(f"{name} by turns", turns)
    print(f"{name}: the times of {disturbed} more runs do not count, as the host took processors away")
    return failed


def main():
    words = argparse.ArgumentParser(description=__doc__, formatter_class=argparse.RawDescriptionHelpFormatter)
    words.add_argument("program", metavar="PROGRAM")
    words.add_argument("count", nargs="?", type=int, metavar="COUNT")
    words.add_argument("seed", nargs="?", type=int, metavar="SEED")
    words.add_argument("--jobs", type=int, default=1, metavar="N")
    words.add_argument("--helpers", type=lambda word: word.split(","), metavar="N,N..")
    words.add_argument("--waking", type=int, metavar="RUNS")
    given = words.parse_args()
    if (given.seed is None) != (given.waking is not None) or (given.waking is not None and given.count is not None):
        words.error("either COUNT and SEED, or --waking RUNS")
    if given.helpers is not None and given.waking is not None:
        words.error("--helpers goes with COUNT and SEED")
    if given.helpers is not None and given.waking is None:
        trial = functools.partial(try_helped, given.program, given.helpers, given.seed)
        tried, failed = given.count, try_plans(trial, given.count, given.jobs)
    elif given.waking is None:
        trial = functools.partial(try_plan, given.program, given.seed)
        tried, failed = given.count + 2, try_plans(trial, given.count, given.jobs)
        failed += try_sleeping(given.program) + try_waking_at_once(given.program)
    else:
        plans = {
            "ping-pong": ring(2, 400), "ring": ring(8, 200), "skips": skips(8, 25),
            "wakings of two": wakings(2, 200), "wakings of eight": wakings(8, 25),
        }
        tried = given.waking * len(plans)
        failed = sum(try_waking(given.program, name, plan, given.waking) for name, plan in plans.items())
    print(f"{tried - failed} passed, {failed} failed")
    sys.exit(1 if failed else 0)


if __name__ == "__main__":
    main()
