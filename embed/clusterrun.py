"""The engine of clusterrun as a Python module: the bytes of a plan in, the bytes of its report or of its trace out.

    import clusterrun
    print(clusterrun.run(open("examples/first.json", "rb").read()).decode())

And the agents of a plan can be moved one by one, in whatever order:

    with clusterrun.Cluster(open("examples/worker.json", "rb").read()) as cluster:
        while cluster.step(0) is clusterrun.Turn.MOVED:
            print(cluster.said(0).decode(), end="")
        print(cluster.audit(), cluster.end().decode())

It calls the shared library libclusterrun.so, which `./clusterrun library` makes beside this file; the variable
CLUSTERRUN_LIBRARY names another one. Calls may be made from several threads, and run at the same time; a cluster stays
with its thread.
"""

import ctypes
import enum
import os
import typing

__all__ = ["Cluster", "Counts", "Refused", "TooLong", "Turn", "check", "run", "trace"]

DONE, REFUSED, NO_MEMORY, TOO_LONG, NO_AGENT = 0, 1, 3, 4, 4


class Refused(ValueError):
    """The plan has a fault; the text of the exception names it, as `refused S7 agent 0 job 1 command 1`."""


class TooLong(ValueError):
    """The plan has more than 4,294,967,295 bytes."""


class Turn(enum.Enum):
    """What a turn of an agent came to."""

    MOVED = 0
    WAITS = 1
    ENDED = 2


class Counts(typing.NamedTuple):
    """All tickets of the shared blocks of a cluster: how many blocks were made and how many of them are released, and
    how many tickets agents hold and how many lie in messages that were not taken."""

    blocks: int
    released: int
    in_agents: int
    in_ports: int


class _Answer(ctypes.Structure):
    """The text of an answer that the library keeps: `struct clusterrun_answer` of clusterrun.h."""

    _fields_ = [("filled", ctypes.c_bool), ("at", ctypes.c_void_p)]


class _Cluster(ctypes.Structure):
    """A cluster that the library keeps: `struct clusterrun_cluster` of clusterrun.h."""

    _fields_ = [("filled", ctypes.c_bool), ("at", ctypes.c_void_p)]


class _Counts(ctypes.Structure):
    """`struct clusterrun_counts` of clusterrun.h."""

    _fields_ = [(name, ctypes.c_uint64) for name in Counts._fields]


def _load():
    beside = os.path.join(os.path.dirname(os.path.abspath(__file__)), "libclusterrun.so")
    library = ctypes.CDLL(os.environ.get("CLUSTERRUN_LIBRARY", beside))
    number, bytes_of, size, kept = ctypes.POINTER(ctypes.c_size_t), ctypes.c_char_p, ctypes.c_size_t, ctypes.POINTER(_Answer)
    for call in (library.clusterrun_keep_run, library.clusterrun_keep_check):
        call.restype = ctypes.c_uint32
        call.argtypes = [bytes_of, size, kept, number]
    library.clusterrun_keep_trace.restype = ctypes.c_uint32
    library.clusterrun_keep_trace.argtypes = [bytes_of, size, ctypes.c_bool, kept, number]
    library.clusterrun_kept_part.restype = size
    library.clusterrun_kept_part.argtypes = [_Answer, size, bytes_of, size, kept]
    library.clusterrun_kept_free.restype = None
    library.clusterrun_kept_free.argtypes = [_Answer]
    _name_clusters(library)
    return library


def _name_clusters(library):
    """The types of the calls on clusters."""
    number, bytes_of, size = ctypes.POINTER(ctypes.c_size_t), ctypes.c_char_p, ctypes.c_size_t
    cluster, answer, counts = map(ctypes.POINTER, (_Cluster, _Answer, _Counts))
    types = {
        "clusterrun_begin": [bytes_of, size, cluster, number, bytes_of, size, number],
        "clusterrun_cluster_step": [_Cluster, size, cluster],
        "clusterrun_cluster_said": [_Cluster, size, size, bytes_of, size, number, number, cluster],
        "clusterrun_cluster_audit": [_Cluster, counts, cluster],
        "clusterrun_cluster_end": [_Cluster, answer, number],
        "clusterrun_cluster_free": [_Cluster],
    }
    for name, of in types.items():
        getattr(library, name).argtypes = of
        getattr(library, name).restype = ctypes.c_uint32
    library.clusterrun_cluster_free.restype = None


_LIBRARY = _load()


def _answer(call, plan, *words):
    plan = bytes(plan)
    answer, length = _Answer(), ctypes.c_size_t(0)
    status = call(plan, len(plan), *words, ctypes.byref(answer), ctypes.byref(length))
    _raise_for(status)
    text = _text(answer, length)
    if status == REFUSED:
        raise Refused(text.decode("ascii"))
    return text


def _raise_for(status):
    """Raises the exception of a status with which there is no text."""
    if status == NO_MEMORY:
        raise MemoryError("out of memory")
    if status == TOO_LONG:
        raise TooLong("the plan is too long")


def _text(answer, length):
    """The text of an answer that is kept, which is given up."""
    rest = _Answer()
    try:
        out = ctypes.create_string_buffer(length.value + 1)
    except MemoryError:
        _LIBRARY.clusterrun_kept_free(answer)
        raise
    _LIBRARY.clusterrun_kept_part(answer, 0, out, length.value, ctypes.byref(rest))
    _LIBRARY.clusterrun_kept_free(rest)
    return out.raw[: length.value]


def check(plan):
    """Checks a plan, given as bytes, and gives nothing. A plan with a fault is the exception Refused."""
    _answer(_LIBRARY.clusterrun_keep_check, plan)


def run(plan):
    """Runs a plan, given as bytes, and gives its report as bytes. A plan with a fault is the exception Refused."""
    return _answer(_LIBRARY.clusterrun_keep_run, plan)


def trace(plan, every=False):
    """Runs a plan, given as bytes, and gives its trace as bytes: JSON Lines, an object for each event. With `every` it
    tells of each value that stays after a collection what keeps it; else only of values that something holds weakly, and
    of those on the way to them. A plan with a fault is the exception Refused."""
    return _answer(_LIBRARY.clusterrun_keep_trace, plan, every)


class Cluster:
    """The agents of a plan, given as bytes, and what they share. An agent moves where `step` says so and never else.

    `end` and `close` give the cluster up, and so does the end of a `with`; after them every other call is an
    error."""

    ROOM = 4096

    def __init__(self, plan):
        plan = bytes(plan)
        self._kept, agents, length = _Cluster(), ctypes.c_size_t(0), ctypes.c_size_t(0)
        fault = ctypes.create_string_buffer(self.ROOM)
        status = _LIBRARY.clusterrun_begin(
            plan, len(plan), ctypes.byref(self._kept), ctypes.byref(agents), fault, self.ROOM, ctypes.byref(length)
        )
        _raise_for(status)
        if status == REFUSED:
            raise Refused(fault.raw[: length.value].decode("ascii"))
        self.agents = agents.value
        self._heard = [0] * self.agents

    def _call(self, call, *words):
        """Calls with the cluster, which the call hands on."""
        if not self._kept.filled:
            raise ValueError("the cluster is given up")
        rest = _Cluster()
        status = call(self._kept, *words, ctypes.byref(rest))
        self._kept = rest
        if status == NO_MEMORY:
            raise MemoryError("out of memory")
        return status

    def _known(self, agent):
        if not 0 <= agent < self.agents:
            raise IndexError("there is no such agent")
        return agent

    def step(self, agent):
        """One turn of an agent, the first of which has the number 0. Gives what it came to. After a MemoryError no agent
        moves any more."""
        return Turn(self._call(_LIBRARY.clusterrun_cluster_step, self._known(agent)))

    def said(self, agent, start=None):
        """The lines of an agent, as bytes: those that are new since the last time, or those of its events from the number
        `start` on, where its oldest event has the number 0."""
        start = self._heard[self._known(agent)] if start is None else start
        length, events = ctypes.c_size_t(self.ROOM), ctypes.c_size_t(0)
        room = 0
        while length.value > room:
            room = length.value
            out = ctypes.create_string_buffer(room)
            to = out, room, ctypes.byref(length), ctypes.byref(events)
            self._call(_LIBRARY.clusterrun_cluster_said, agent, start, *to)
        self._heard[agent] = events.value
        return out.raw[: length.value]

    def audit(self):
        """All tickets, counted now, as Counts."""
        counts = _Counts()
        self._call(_LIBRARY.clusterrun_cluster_audit, ctypes.byref(counts))
        return Counts(*(getattr(counts, name) for name in Counts._fields))

    def end(self):
        """Runs what is left by turns, and gives the report of the whole as bytes."""
        if not self._kept.filled:
            raise ValueError("the cluster is given up")
        kept, self._kept = self._kept, _Cluster()
        answer, length = _Answer(), ctypes.c_size_t(0)
        _raise_for(_LIBRARY.clusterrun_cluster_end(kept, ctypes.byref(answer), ctypes.byref(length)))
        return _text(answer, length)

    def close(self):
        """Gives the cluster up, where that was not done before."""
        kept, self._kept = self._kept, _Cluster()
        if kept.filled:
            _LIBRARY.clusterrun_cluster_free(kept)

    def __enter__(self):
        return self

    def __exit__(self, *_):
        self.close()

    def __del__(self):
        if hasattr(self, "_kept"):
            self.close()
