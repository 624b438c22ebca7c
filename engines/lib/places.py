"""Where a plan's test stands in test262: its folder, the identifier of its section, what it quotes, and its features."""

import rules
from verdicts import (
    ATOMICS, BLOCKS, BUFFER, CLEANUP, CLEAR, DEREF, ENQUEUE, EXCHANGING, EXECUTION, HELD_WEAKLY, JOBS, KEEP, KEYS,
    LIVENESS, NUMBERS, PROPERTIES, REGISTER, REGISTRY, SAME_VALUE, SYMBOLS, TYPES, UNREGISTER, VALIDATE, WEAKMAP, WEAKREF,
    WEAKSET,
)

# the identifiers of the sections in the text of ECMA-262
ESID = {
    TYPES: "sec-ecmascript-language-types", SAME_VALUE: "sec-object.is", HELD_WEAKLY: "sec-canbeheldweakly",
    SYMBOLS: "sec-symbol-description", PROPERTIES: "sec-ordinary-object-internal-methods-and-internal-slots",
    KEYS: "sec-ordinaryownpropertykeys", WEAKREF: "sec-weak-ref-target", DEREF: "sec-weak-ref.prototype.deref",
    KEEP: "sec-addtokeptobjects", CLEAR: "sec-clear-kept-objects", LIVENESS: "sec-liveness",
    EXECUTION: "sec-weakref-execution", WEAKMAP: "sec-weakmap-objects", WEAKSET: "sec-weakset-objects",
    REGISTRY: "sec-finalization-registry-cleanup-callback", REGISTER: "sec-finalization-registry.prototype.register",
    UNREGISTER: "sec-finalization-registry.prototype.unregister", CLEANUP: "sec-cleanup-finalization-registry",
    ENQUEUE: "sec-host-cleanup-finalization-registry", JOBS: "sec-jobs", BLOCKS: "sec-data-blocks",
    ATOMICS: "sec-atomics-object", EXCHANGING: "sec-atomics-object", NUMBERS: "sec-tointegerorinfinity",
    BUFFER: "sec-sharedarraybuffer-length", VALIDATE: "sec-validateatomicaccess",
}
OTHERWISE = "sec-weakref-execution"
# what the sections say, as far as tests quote them
QUOTES = {
    "sec-weakref-execution": """\
At any time, if a set of objects and/or symbols S is not live, an ECMAScript implementation may perform the
following steps atomically:

1. For each element value of S, do
   a. For each WeakRef ref such that ref.[[WeakRefTarget]] is value, do
      i. Set ref.[[WeakRefTarget]] to empty.
   [...]
   c. For each WeakMap map such that map.[[WeakMapData]] contains a Record r such that r.[[Key]] is value, do
      i. Set r.[[Key]] to empty.
      ii. Set r.[[Value]] to empty.""",
    "sec-liveness": """\
At any point during evaluation, a set of objects and/or symbols S is considered live if either of the following
conditions is met:

* Any element in S is included in any agent's [[KeptAlive]] List.
* There exists a valid future hypothetical WeakRef-oblivious execution with respect to S that observes the identity
  of any value in S.""",
    "sec-addtokeptobjects": """\
1. Let agentRecord be the surrounding agent's Agent Record.
2. Append value to agentRecord.[[KeptAlive]].

When the abstract operation AddToKeptObjects is called with a target object or symbol, it adds the target to a list
that will point strongly at the target until ClearKeptObjects is called.""",
    "sec-clear-kept-objects": """\
ECMAScript implementations are expected to call ClearKeptObjects when a synchronous sequence of ECMAScript
executions completes.""",
    "sec-weakmap.prototype.get": """\
4. For each Record { [[Key]], [[Value]] } p of M.[[WeakMapData]], do
   a. If p.[[Key]] is not empty and SameValue(p.[[Key]], key) is true, return p.[[Value]].
5. Return undefined.""",
    "sec-weak-ref.prototype.deref": """\
1. Let weakRef be the this value.
2. Perform ? RequireInternalSlot(weakRef, [[WeakRefTarget]]).
3. Return WeakRefDeref(weakRef).""",
}
# the methods by which tests of a collection are put into folders, and the constructors, the first that is used
METHODS = {
    "wmget": ("WeakMap", "get"), "wmhas": ("WeakMap", "has"), "wmdelete": ("WeakMap", "delete"), "wmset": ("WeakMap", "set"),
    "wshas": ("WeakSet", "has"), "wsdelete": ("WeakSet", "delete"), "wsadd": ("WeakSet", "add"),
    "unregister": ("FinalizationRegistry", "unregister"), "register": ("FinalizationRegistry", "register"),
    "deref": ("WeakRef", "deref"),
}
CONSTRUCTORS = {
    "weakmap": "WeakMap", "weakset": "WeakSet", "registry": "FinalizationRegistry", "weakref": "WeakRef",
    "buffer": "SharedArrayBuffer", "symbol": "Symbol", "symbolfor": "Symbol",
}
FOLDERS = {
    TYPES: "language/types", SAME_VALUE: "built-ins/Object/is", PROPERTIES: "language/types/object",
    KEYS: "built-ins/Object/keys", SYMBOLS: "built-ins/Symbol", WEAKREF: "built-ins/WeakRef",
    DEREF: "built-ins/WeakRef/prototype/deref",
    REGISTRY: "built-ins/FinalizationRegistry", REGISTER: "built-ins/FinalizationRegistry/prototype/register",
    UNREGISTER: "built-ins/FinalizationRegistry/prototype/unregister", CLEANUP: "built-ins/FinalizationRegistry",
    ENQUEUE: "built-ins/FinalizationRegistry", BLOCKS: "built-ins/SharedArrayBuffer", BUFFER: "built-ins/SharedArrayBuffer",
    **dict.fromkeys([ATOMICS, EXCHANGING, NUMBERS, VALIDATE], "built-ins/Atomics"),
}
# what each command needs of an engine
FEATURES = {
    "weakref": ["WeakRef"], "deref": ["WeakRef"], "symbol": ["Symbol"], "symbolfor": ["Symbol"],
    "collect": ["host-gc-required"],
    **dict.fromkeys([word for word in rules.COMMANDS if word.startswith("wm")] + ["weakmap"], ["WeakMap"]),
    **dict.fromkeys([word for word in rules.COMMANDS if word.startswith("ws")] + ["weakset"], ["WeakSet"]),
    **dict.fromkeys(["registry", "register", "unregister"], ["FinalizationRegistry"]),
    "buffer": ["SharedArrayBuffer"],
    **dict.fromkeys(["length", "sameblock"], ["SharedArrayBuffer", "TypedArray"]),
    **dict.fromkeys(rules.ON_WORDS, ["Atomics", "SharedArrayBuffer", "TypedArray"]),
}


def method_of(words, names):
    """The first of the methods of these constructors that the test calls: the constructor, and the method."""
    return next((METHODS[word] for word in METHODS if word in words and METHODS[word][0] in names), None)


def esid(section, words):
    """The identifier of what a test is about: of a section on WeakMaps or WeakSets, or on what their entries hold, that of
    the method."""
    if section in ESID and section not in (WEAKMAP, WEAKSET):
        return ESID[section]
    asked = words if section in (WEAKMAP, WEAKSET) else words & {"wmget", "wmhas"}
    method = method_of(asked, ["WeakSet"] if section == WEAKSET else ["WeakMap"])
    return f"sec-{method[0].lower()}.prototype.{method[1]}" if method else ESID.get(section, OTHERWISE)


def folder(section, words):
    """The folder of a test: that of its section, else that of the method that it calls, else of what it makes."""
    if section in FOLDERS:
        return FOLDERS[section]
    method = method_of(words, CONSTRUCTORS.values())
    if method:
        return f"built-ins/{method[0]}/prototype/{method[1]}"
    made = next((CONSTRUCTORS[word] for word in CONSTRUCTORS if word in words), None)
    return f"built-ins/{made}" if made else "language/types"


def features(words):
    return {feature for word in words for feature in FEATURES.get(word, ())}
