"""What a line of an engine may be beside the program's, and by which rule of ECMA-262."""

import enum

import rules

EXECUTION = "Processing Model of WeakRef and FinalizationRegistry Targets: Execution"
LIVENESS = "Processing Model of WeakRef and FinalizationRegistry Targets: Liveness"
CLEANUP = "CleanupFinalizationRegistry ( finalizationRegistry )"
ENQUEUE = "HostEnqueueFinalizationRegistryCleanupJob ( finalizationRegistry )"
JOBS = "Jobs and Host Operations to Enqueue Jobs"
WEAKREF = "WeakRef ( target )"
DEREF = "WeakRef.prototype.deref ( ), WeakRefDeref"
KEEP = "AddToKeptObjects"
CLEAR = "ClearKeptObjects"
HELD_WEAKLY = "CanBeHeldWeakly"
WEAKMAP = "WeakMap ( [ iterable ] ), WeakMap.prototype.set, get, has and delete"
WEAKSET = "WeakSet ( [ iterable ] ), WeakSet.prototype.add, has and delete"
REGISTER = "FinalizationRegistry.prototype.register ( target, heldValue [ , unregisterToken ] )"
UNREGISTER = "FinalizationRegistry.prototype.unregister ( unregisterToken )"
REGISTRY = "FinalizationRegistry ( cleanupCallback )"
SYMBOLS = "Symbol ( [ description ] ), Symbol.for ( key )"
TYPES = "ECMAScript Language Types"
SAME_VALUE = "SameValue"
PROPERTIES = "Ordinary Object Internal Methods: OrdinaryGet, OrdinarySet, OrdinaryDelete"
KEYS = "OrdinaryOwnPropertyKeys"
BLOCKS = "Data Blocks, CreateSharedByteDataBlock"
BUFFER = "SharedArrayBuffer ( length )"
ATOMICS = "Atomics.load, store and add, on a Uint32Array over a shared block"
EXCHANGING = "Atomics.sub, and, or, xor, exchange and compareExchange, on a Uint32Array over a shared block"
VALIDATE = "Atomics.load, store and add: ValidateIntegerTypedArray, ValidateAtomicAccess, ToUint32"
NUMBERS = "ToIntegerOrInfinity, StringToNumber, of an index or a number that is a variable"
TRY = "The try Statement: evaluation of a TryStatement with a Catch"
WAITING = "Atomics.wait and notify, on an Int32Array over a shared block"
MESSAGES = "Agent Clusters: messages between agents"

# the section of what a command answers, and of what it refuses
ANSWERED_IN = {
    **{word: globals()[row["section"]] for word, row in rules.COMMANDS.items() if "section" in row},
    "on": MESSAGES, "held": CLEANUP,
}


class Kind(enum.Enum):
    SAME = "same"
    ORDER = "another order"
    RETAINED = "retained"
    EARLIER = "earlier"
    EDITION = "earlier edition"
    UNCALLED = "no callback"
    NOT_OBSERVED = "not observed"
    NO_ANSWER = "no answer"
    CONTRADICTION = "contradiction"


# why each but a contradiction is allowed, and the section that says so
ALLOWED = {
    Kind.SAME: ("the same line", ""),
    Kind.ORDER: ("which cell of which FinalizationRegistry comes next is the engine's to choose", CLEANUP),
    Kind.RETAINED: ("an engine may empty less than all that is not live, and later", EXECUTION),
    Kind.EARLIER: ("an engine may empty what is not live at any time", EXECUTION),
    Kind.EDITION: ("before the 14th edition no symbol could be held weakly", HELD_WEAKLY),
    Kind.UNCALLED: ("a host need not call a callback, nor need its target be emptied", ENQUEUE),
    Kind.NOT_OBSERVED: ("no engine tells how much it empties, nor what becomes of registrations", EXECUTION),
    Kind.NO_ANSWER: ("the engine ended, or took too long, before it had answered: no rule says how much it must bear", ""),
}


class Broken(enum.Enum):
    """The rules that an engine can break, each with its section."""

    EMPTIED_LIVE = ("a value was emptied that is still reached", LIVENESS)
    EMPTIED_KEPT = ("a value was emptied that is kept alive to the end of the job", KEEP)
    GIVEN_AGAIN = ("a WeakRef gave a value that was emptied before", DEREF)
    REACHED_EMPTIED = ("a WeakRef gave a value that leads to one that was emptied before", LIVENESS)
    CLEANED_LIVE = ("a callback was called for a target that is still reached", LIVENESS)
    CLEANED_KEPT = ("a callback was called for a target that is kept alive to the end of the job", KEEP)
    CLEANED_TWICE = ("a callback was called for a registration that was taken before", CLEANUP)
    CLEANED_UNREGISTERED = ("a callback was called for a registration that was unregistered before", UNREGISTER)
    CLEANED_UNKNOWN = ("a callback was called for a registration that was never made", REGISTER)
    HELD_OTHER = ("a callback was called with another held value than that of its registration", CLEANUP)
    CLEANED_INSIDE = ("a callback was called before a job or a callback had ended", JOBS)
    ANSWERED = ("the engine answers otherwise, where no collection is concerned", None)


# what never happened in a whole run: no rule forbids it, but the standard expects the opposite of hosts
NEVER_EMPTIED = ("no WeakRef was ever emptied", CLEAR)
NEVER_CALLED = ("no callback ever came", ENQUEUE)
