"""Other ways to run an engine: with flags of its own, and with switches that make it collect without being asked."""

import os

import hosts

PRESSING = os.path.join(hosts.HERE, "pressing.js")
SLICES = os.path.join(hosts.HERE, "slices.js")  # for SpiderMonkey's shell, and ours over its library
# What follows are switches of engines, by a name: words that are added, and words of the host's that are left out.
V8_THREADS = ["--single-threaded", "--single-threaded-gc"]
V8_MARKING = ["--stress-incremental-marking", "--stress-marking=50"]
V8 = {
    "incremental": (V8_MARKING, V8_THREADS),
    "young": ([*V8_MARKING, "--stress-scavenge=30", "--min-semi-space-size=1", "--max-semi-space-size=1"], V8_THREADS),
    "ephemerons": ([*V8_MARKING, "--ephemeron-fixpoint-iterations=0"], V8_THREADS),
    "compacting": ([*V8_MARKING, "--stress-compaction-random"], V8_THREADS),
}
JAVASCRIPTCORE = {
    "continuous": (["--collectContinuously=1", "--collectContinuouslyPeriodMS=1"], []),
    "interval": (["--slowPathAllocsBetweenGCs=13"], []),
    "scribbling": (["--slowPathAllocsBetweenGCs=101", "--scribbleFreeCells=1", "--sweepSynchronously=1"], []),
    "stochastic": (["--collectContinuously=1", "--useStochasticMutatorScheduler=1", "--numberOfGCMarkers=4"], []),
    "full": (["--slowPathAllocsBetweenGCs=37", "--useGenerationalGC=0"], []),
}
# Only a shell that was built with zeal takes these.
SPIDERMONKEY = {
    "young": (["--gc-zeal=7,50"], []), "slices": (["--gc-zeal=10,50"], []), "interval": (["--gc-zeal=2,97"], []),
}
SWITCHES = {"node": V8, "d8": V8, "jsc": JAVASCRIPTCORE, "js": SPIDERMONKEY}


class NoWay(Exception):
    """An engine that can't be run so."""


class Way:
    """An engine with other words: flags before its own, some of its own left out, scripts after the interpreter. It may be
    in the midst of a collection of its own at any time, so canaries that live show nothing."""

    is_vague = True

    def __init__(self, engine, how, flags=(), left_out=(), after=()):
        self.engine, self.how, self.flags, self.left_out, self.after = engine, how, flags, left_out, after
        self.name, self.command, self.version, self.seconds = engine.name, engine.command, engine.version, engine.seconds

    def words(self, scripts):
        words = self.engine.words([*scripts, *self.after])
        return [*self.flags, *(word for word in words if word not in self.left_out)]

    def words_with(self, scripts):
        return [self.command, *self.words([*scripts, hosts.PLAN])]


def with_flags(engine, flags):
    if engine.name in hosts.IN_PAGES:
        raise NoWay(f"{engine.name} takes no flags here: name a script that adds them by {engine.name.upper()}")
    return Way(engine, getattr(engine, "how", "flags"), flags)


def has_zeal(engine):
    """Whether a shell of SpiderMonkey was built with zeal: else it bears the word, and does nothing."""
    return engine.command != hosts.BUILT_JS and "ignored in non-gc-zeal builds" not in hosts.said(engine.command, "--help")


def stressed(engine):
    """The engine under each of its switches, and with garbage between the commands, which each engine bears."""
    switches = SWITCHES.get(engine.name, {}) if engine.name != "js" or has_zeal(engine) else {}
    ways = [Way(engine, how, *words) for how, words in switches.items()]
    ways += [Way(engine, "slices", after=[SLICES])] if engine.name == "js" else []
    return [*ways, Way(engine, "pressing", after=[PRESSING])]
