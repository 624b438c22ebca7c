"""Random plans, whole and spoiled, for the tests; plans_by_rules.py is the test of them all.

Something less than half of the plans are of agents that have nothing to do with each other. They are of four kinds: of
lives that were written by hand, mixed (`lives`); of commands that mostly suit what the variables hold at that point,
WeakMaps and WeakSets before all (`tables`), or FinalizationRegistries before all (`registrations`); and of any commands
(`any_jobs`). About as many are of agents that share blocks and post messages (`shared_plan`): of talks that were
written by hand, mixed (`talks`); of suited commands, where each agent's next job and command is chosen where the others
have come to (`grown`); of little but waiting (`waits`); and of any commands (`any_shared`). The others have faults
(`doubtful_plan`). The callbacks of all but these were written by hand as well, and have any command among them here and
there. A third of the plans are of version 2: of lives with later collections as well (`later_lives`), of suited commands
with many of them (`laters`), or of the others, in whose jobs later collections stand beside `collect` or in its place
(`with_laters`).

In a third of all plans the members of the objects stand in any order, and a quarter is written over several lines.
"""

import copy
import json

import rules
from rules import ASSIGNING, ONE_MORE_USE, USES

NAMES = ["a", "b", "c", "w", "x", "y"]
# where suited commands have most of their WeakMaps, WeakSets, WeakRefs, FinalizationRegistries and buffers, and assign
# little else
PLACES = {"weakmap": ["m", "n"], "weakset": ["s"], "weakref": ["u", "v"], "registry": ["f", "g"], "buffer": ["d", "e"]}
# where `registrations` has most of its tokens
TOKENS = ["t", "k"]
KEYS = ["p", "q", "r"]
# how often plans are of which version
VERSIONS = [1, 1, 2]
CALLBACKS = ["cb", "B", "_x"]
AGENTS = ["a", "main", "w", "B", "_", "x", "worker", "c8"]
ON_WORDS = [word for word in rules.ON_WORDS if word not in rules.SINCE_THREE]
SHARING = ["buffer", "length", "sameblock", *ON_WORDS, "post"]
ALONE = [word for word in USES if word not in [*SHARING, *rules.SINCE_TWO, *rules.SINCE_THREE]]
COLLECTING = [["collect"], ["collectlater"]]
ASKING = ["wmhas", "wmdelete", "wshas", "wsdelete"]
# after which what they assign is mostly said
TELLING = ["deref", "wmget", "unregister", "length", "sameblock", *ASKING, *(ASSIGNING & {*ON_WORDS})]
ANSWERING = ["same", "delete", "unregister", *ASKING]  # what assigns true or false
WEAK_TABLES = ["weakmap", "wmset", "wmget", "wmhas", "wmdelete", "weakset", "wsadd", "wshas", "wsdelete"]
# numbers and texts that JSON readers treat differently, and arrays at and past the deepest nesting
ODD_JSON = [
    b"1e400", b"-1e400", b"9" * 400, b"1E-400", b"1e3", b"1.0", b"-0", b'"\\ud800"', b'"\\u0061"', b'"\\u0022"',
    *(b"[" * levels + b"]" * levels for levels in range(118, 126)),
]
LITERALS = [None, True, False, 0, 1, -1, 9007199254740991, -9007199254740991, "", "k", "a text"]
SIZES = [0, 1, 1, 2, 2, 3, 4, 5, 16384]
INDEXES = [0, 0, 1, 2, 3, 4, -1, 16383, 16384, 4294967296, 9007199254740991, -9007199254740991]
NUMBERS = [
    0, 1, 2, 7, -1, -2, 2147483648, 4294967295, 4294967296, 4294967297, -4294967295, -4294967296, -4294967297,
    9007199254740991, -9007199254740991,
]

# Lives of values, as commands in words; capitals stand for variables. At a slash a job ends, and it may end between any
# two commands.
LIVES = [
    # a target that goes, or stays to the end of the job that made its WeakRef; asked for twice
    "new A; weakref W A; let A null; collect; deref B W; say B; deref B W; say B; collect; deref B W; say B",
    # a target that a deref keeps to the end of its job
    "new A; weakref W A; / deref B W; let A null; let B null; collect; deref B W; let B null; / collect; deref B W; say B",
    # a target that a variable holds again
    "new A; weakref W A; let A null; deref A W; / collect; deref B W; same C A B; say C; let B null; / collect; say A",
    # a target with two WeakRefs, and one that takes another's place
    "new A; weakref V A; weakref W A; let A null; / collect; deref A V; say A; deref A W; say A",
    "new A; weakref W A; let A null; / collect; new A; say A; deref B W; say B; weakref W A; deref B W; say B",
    # a WeakRef that goes, while its target stays
    "new A; weakref W A; / copy B A; let W null; collect; weakref W B; deref A W; say A; say W",
    # a WeakRef that a property alone holds, and one that has a property
    "new A; new B; weakref W A; set B p W; let W null; / let A null; collect; get W B p; deref A W; say A; say W",
    "new A; new B; weakref W A; set W p B; let B null; / collect; get B W p; say B; keys W; let W null; collect",
    # a WeakRef to a WeakRef
    "new A; weakref W A; weakref V W; let W null; / collect; deref W V; say W; weakref W V; deref B W; say B",
    "new A; weakref W A; weakref V W; let A null; / collect; deref W V; deref A W; say A",
    # a target that leads to another, and a kept one that does
    "new A; new B; set A p B; weakref V A; weakref W B; let A null; let B null; / collect; deref A V; deref B W; say A; say B",
    "new A; new B; set A p B; weakref W A; let A null; let B null; collect; deref A W; get B A p; say B",
    "new A; new B; set A p B; weakref W A; let B null; / deref A W; let A null; collect; deref A W; get B A p; say B",
    # cycles
    "new A; new B; set A p B; set B q A; weakref W A; let A null; collect; let B null; / collect; deref A W; say A",
    "new A; set A p A; weakref W A; let A null; / collect; deref A W; say A",
    # chains, made from either end, whole and broken
    "new A; new B; new C; set A p B; set B q C; let B null; let C null; collect; get B A p; get C B q; say C; let A null",
    "new A; new B; new C; set A p B; set B q C; let B null; let C null; delete X A p; collect; say A",
    "new C; new B; set B p C; copy C B; new B; set B q C; let C null; collect; get A B q; get A A p; say A; set B q A; collect",
    # an object with several properties, and what a property held before
    "new A; new B; new C; set A p A; set A q B; set A r C; let B null; let C null; collect; get B A q; get C A r; say B; say C",
    "new A; new B; new C; set A p B; set A p C; weakref V B; weakref W C; let B null; let C null; / collect; deref B V; say B",
    # symbols
    "symbol A; new B; set B p A; let A null; collect; get C B p; say C; delete A B p; let C null; collect; say B",
    "symbol A; copy B A; let A null; collect; symbol A; let B null; collect; say A",
    # symbols that are held weakly: a target, a key that its value leads to, a member, a target and a token; and registered
    # ones, which are not
    "symbol A; weakref W A; let A null; collect; deref B W; say B; let B null; / collect; deref B W; say B",
    "symbol A; weakref W A; / deref B W; same X A B; say X; let A null; let B null; collect; deref B W; say B; "
    "let B null; / collect; deref B W; say B",
    "weakmap M; symbol A; new B; wmset M A B; set B p A; let B null; collect; wmget B M A; say B; let B null; "
    "wmhas X M A; say X; let A null; collect; say X",
    "weakset S; symbol A; wsadd S A; wshas X S A; say X; weakref W A; let A null; / collect; deref A W; say A; "
    "wshas X S A; say X",
    "weakmap M; symbol A; symbol B; wmset M A B; wmset M B A; let B null; collect; wmget B M A; say B; wmdelete X M A; "
    "say X; let A null; let B null; collect; say M",
    "registry f cb; symbol A; let B 5; register f A B A; let A null; collect; / say held",
    "registry f cb; new A; symbol B; let X 1; register f A X B; register f B X; unregister Y f B; say Y; let A null; "
    "let B null; collect",
    "registry f cb; symbol A; register f A A",
    "symbolfor A k; weakref W A", "weakmap M; symbolfor A k; wmhas X M A; say X; wmset M A M",
    "registry f cb; symbolfor A k; let B 1; register f A B", "registry f cb; symbol A; symbolfor B k; register f A f B",
    "registry f cb; symbolfor A k; unregister X f A",
    # what stays can be used as before, and no number is given again
    "new A; new B; set A p B; set A q A; let B null; collect; keys A; delete X A p; collect; keys A; set A r A; keys A",
    "new A; let A null; collect; new A; say A; symbol B; say B; weakref W A; say W",
    # a refusal ends a job, and with it all that the job keeps alive
    "new A; weakref W A; let A null; keys A; / collect; deref B W; say B",
    "new A; weakref W A; / let A null; deref B W; let B null; deref B B; / collect; deref B W; say B",
    "collect; collect",
    # an entry whose key goes, and with it a value that nothing else holds; the same with key and value held
    "weakmap M; new A; new B; wmset M A B; weakref W B; let B null; / collect; deref B W; say B; let A null; "
    "let B null; / collect; deref B W; say B",
    "weakmap M; new A; new B; wmset M A B; weakref W A; let A null; / collect; deref A W; say A; wmhas X M A; say X; "
    "collect; say B",
    "weakmap M; new A; new B; wmset M A B; collect; wmget C M A; same X B C; say X; wmdelete X M A; say X; "
    "wmdelete X M A; say X; wmhas X M A; say X",
    # a value that goes with its map, by its entry's deletion, or because another takes its place
    "weakmap M; new A; new B; wmset M A B; weakref W B; let B null; let M null; / collect; deref B W; say B; say A",
    "weakmap M; new A; new B; wmset M A B; weakref W B; let B null; wmdelete X M A; say X; / collect; deref B W; say B",
    "weakmap M; new A; new B; new C; wmset M A B; wmset M A C; let C null; weakref W B; let B null; / collect; "
    "wmget B M A; say B; deref B W; say B",
    # a value that leads to its own key
    "weakmap M; new A; wmset M A A; weakref W A; let A null; / collect; deref A W; say A; say M",
    "weakmap M; new A; new B; set B p A; wmset M A B; weakref W A; let A null; let B null; / collect; deref A W; say A",
    # a map that is its own key or value, or both, or a property of its key or value
    "weakmap M; new A; wmset M M A; weakref W A; let A null; / collect; wmget A M M; say A; let A null; let M null; "
    "/ collect; deref A W; say A",
    "weakmap M; new A; wmset M A M; weakref W M; let M null; / collect; deref M W; say M; collect; wmhas X M A; say X",
    "weakmap M; wmset M M M; wmget A M M; wmhas X A M; say X; weakref W M; let A null; let M null; / collect; "
    "deref M W; say M",
    "weakmap M; new A; new B; set A p M; wmset M A B; weakref W B; let B null; let M null; / collect; deref B W; "
    "say B; get M A p; wmget C M A; say C",
    # chains of entries, set from either end, in one map and in two, whole, and broken at a key
    "weakmap M; new A; new B; new C; new D; wmset M A B; wmset M B C; wmset M C D; let B null; let C null; "
    "let D null; collect; wmget B M A; wmget C M B; wmget D M C; say D",
    "weakmap M; new A; new B; new C; new D; wmset M C D; wmset M B C; wmset M A B; let B null; let C null; "
    "let D null; collect; wmget B M A; wmget C M B; wmget D M C; say D",
    "new D; new C; new B; new A; weakmap M; weakmap N; wmset N C D; wmset M B C; wmset N A B; let B null; "
    "let C null; let D null; collect; wmget B N A; wmget C M B; wmget D N C; say D",
    "weakmap M; new A; new B; new C; wmset M B C; wmset M A B; weakref W C; let A null; let B null; let C null; "
    "/ collect; deref C W; say C; say M",
    # maps that only another map's entry leads to, and keys that only such a map's entry does
    "weakmap M; weakmap N; new A; new B; wmset N A B; wmset M A N; let N null; weakref W B; let B null; / collect; "
    "wmget N M A; wmget B N A; say B; deref B W; say B; let N null; let B null; / let M null; collect; deref B W; "
    "say B",
    "weakmap N; weakmap M; new A; new B; new C; wmset N B C; set N p B; wmset M A N; let N null; let B null; "
    "let C null; collect; wmget N M A; get B N p; wmget C N B; say C",
    "new A; new B; weakmap M; weakmap N; wmset N B M; wmset M A B; let B null; weakref W N; let N null; / collect; "
    "wmget B M A; say B; deref N W; say N",
    # keys that are WeakRefs: an entry's value may be the target, and lives as long as the WeakRef
    "weakmap M; new A; weakref W A; wmset M W A; let A null; / collect; deref A W; say A; let A null; let W null; "
    "/ collect; say M",
    "weakmap M; new A; weakref W A; wmset M A W; let W null; weakref V A; let A null; / collect; deref A V; say A; "
    "say M",
    # maps and keys that are kept alive alone
    "weakmap M; new A; new B; wmset M A B; weakref W A; let A null; let B null; collect; deref A W; wmget B M A; say B",
    "weakmap M; new A; new B; wmset M A B; weakref W M; let M null; weakref V B; let B null; collect; deref M W; "
    "wmget B M A; say B; let B null; let M null; / collect; deref B V; say B",
    # sets, which hold no member; their own properties are held
    "weakset S; new A; wsadd S A; wshas X S A; say X; weakref W A; let A null; / collect; deref A W; say A; "
    "wshas X S A; say X; say S",
    "weakset S; new A; wsadd S A; wsadd S A; collect; wshas X S A; say X; wsdelete X S A; say X; wsdelete X S A; "
    "say X; wshas X S A; say X",
    "weakset S; wsadd S S; weakref W S; wshas X S S; say X; let S null; / collect; deref S W; say S",
    "weakset S; weakmap M; new A; wsadd S M; wmset M S A; set S p A; wshas X S M; say X; let A null; collect; "
    "wmget A M S; get B S p; same X A B; say X; let M null; collect; keys S",
    # what can't be held weakly is no key and no member, and asking for it is no refusal
    "weakmap M; weakset S; symbolfor A k; wmget B M A; say B; wmhas X M A; say X; wmdelete X M A; say X; wshas X S A; "
    "say X; wsdelete X S A; say X; wmset M A A",
    "weakset S; new A; wsadd S A; symbolfor B k; wshas X S B; say X; let B null; wsdelete X S B; say X; wsadd S B",
    # what is no map or no set
    "weakset S; new A; wmset S A A",
    "weakmap M; new A; wsadd M A",
    "new A; weakmap M; wmget B A M",
    # what is made after a collection is no key or member, though what went was one
    "weakmap M; weakset S; new A; wmset M A S; wsadd S A; let A null; collect; new A; wmhas X M A; say X; "
    "wshas X S A; say X; wmset M A A; wmget B M A; say B",
    # a held value of each kind; one that leads to the target, so that it is never taken; one that a cell alone holds
    "registry f cb; new A; let B 5; register f A B A; let A null; collect; / say held",
    "registry f cb; new A; new B; set B p A; register f A B; let A null; let B null; collect; / collect",
    "registry f cb; new A; new B; weakref W B; register f A B; let B null; / collect; let A null; / collect; / "
    "say held; let held null; collect; deref B W; say B",
    "registry f cb; new A; symbol B; register f A B; let B null; collect; let A null; collect; / let held null; "
    "collect",
    "registry f _x; new A; symbolfor B k; register f A B; register f A A; let A null; collect",
    # a target that is registered several times, with one FinalizationRegistry and with two
    "registry f cb; registry g _x; new A; let B 1; let C 2; register f A B; register g A C; register f A C; "
    "let A null; / collect; / collect",
    # tokens: one that two share, one that goes, one that is the target, one of another FinalizationRegistry
    "registry f cb; new A; new B; new C; let X 1; register f A X C; register f B X C; let A null; collect; "
    "unregister Y f C; say Y; unregister Y f C; say Y; let B null; collect",
    "registry f cb; new A; new B; let X 1; register f A X B; let B null; collect; new B; unregister Y f B; say Y; "
    "let A null; collect; unregister Y f B; say Y",
    "registry f _x; new A; let X 1; register f A X A; register f A X; unregister Y f A; say Y; let A null; collect",
    "registry f cb; registry g cb; new A; new B; let X 1; register f A X B; let A null; unregister Y g B; say Y; "
    "collect; / unregister Y f B; say Y",
    # a cell that is unregistered while its FinalizationRegistry awaits its cleanup job, so that the job finds none
    "registry f cb; new A; new B; let X 1; register f A X B; let A null; collect; unregister Y f B; say Y; / collect",
    # what is no FinalizationRegistry, what can't be held weakly, and what is the target and the held value
    "registry f cb; register f f f",
    "registry f cb; new A; register A A A",
    "registry f cb; let A 1; new B; register f A A A",
    "registry f cb; new A; let B 1; register f A B B",
    "registry f cb; new A; register f A A B",
    "registry f cb; new A; symbolfor B k; register f B A; / unregister X A A; / unregister X f B; / unregister X f X",
    # a FinalizationRegistry that no variable holds, one with properties, and one that is a target, a key, a held value
    "registry f cb; weakref W f; new A; set f p A; let A null; let B 1; register f f B; let f null; / collect; "
    "deref f W; get A f p; say A; say f; keys f",
    "registry f cb; registry g _x; weakmap M; new A; wmset M f A; let B 1; register g f B f; register g f g f; "
    "let f null; let A null; collect; unregister X g g; say X; deref f g",
    # a chain of targets and held values, of which each collection takes one
    "registry f cb; new A; new B; new C; register f A B; register f B C; let A null; let B null; let C null; collect; "
    "/ let held null; collect; / let held null; collect; / let held null; collect",
]

# Lives of version 2
LATER_LIVES = [
    # a target that goes though the job is refused, one that a deref gives meanwhile, and what hangs on it
    "new A; weakref W A; let A null; / collectlater; let B 1; set B p B; / deref A W; say A",
    "new A; new B; set A p B; weakref W A; new C; let A null; let B null; let C null; / collectlater; deref A W; let A null; "
    "/ collect",
    "new A; new B; set A p B; weakref W A; weakref V B; let A null; let B null; / collectlater; deref A W; delete X A p; "
    "let A null; / deref B V; say B; let B null; / collect; deref B V; say B",
    "new A; weakref W A; let A null; / collectlater; deref A W; deref A W; new B; set B p A; let A null; / get A B p; say A; "
    "deref C W; same X A C; say X",
    "new A; new B; set A p B; weakref V A; weakref W B; let A null; let B null; / collectlater; deref B W; let B null; "
    "/ deref A V; deref B W; say A; say B",
    "symbol A; weakref W A; let A null; / collectlater; deref A W; say A; let A null; / collectlater; / deref A W; say A",
    # a WeakRef that a deref gives does not lead to its target; asked for meanwhile it does
    "new A; weakref W A; weakref V W; let A null; let W null; / collectlater; deref W V; / deref A W; say A; say W",
    "new A; weakref W A; weakref V W; let A null; let W null; / collectlater; deref W V; deref A W; / say A; deref B W; say B",
    # what a deref gave before, and what is kept alive, is a root; and what is let go of meanwhile was one
    "new A; weakref W A; / deref A W; let A null; collectlater; / deref A W; say A; let A null; / collect; deref A W; say A",
    "new A; weakref W A; let A null; collectlater; / deref A W; say A; let A null; / collectlater; / deref A W; say A",
    "new A; weakref W A; / collectlater; let A null; / deref A W; say A; let A null; / collectlater; / deref A W; say A",
    "new A; new B; set A p B; weakref W B; let B null; / collectlater; delete X A p; / deref B W; say B; let B null; "
    "/ collect; deref B W; say B; say A",
    # what is made meanwhile stays, to the next collection
    "collectlater; new A; let A null; / collect", "collectlater; new A; / collect; say A; let A null; / collectlater; / collect",
    "collectlater; new A; weakref W A; let A null; / deref A W; say A; let A null; / collect; deref A W; say A",
    "new A; weakref W A; let A null; / collectlater; weakmap M; deref A W; wmset M A M; let A null; / deref A W; wmget B M A; "
    "say B",
    # nothing collects while one is open
    "collectlater; collect", "collectlater; collectlater", "new A; let A null; collectlater; collect; say A; / collect",
    "collect; collectlater; / collectlater; / collect", "new A; let A null; collect; new A; let A null; collectlater; / say A",
    # entries: one whose key a deref gives, one that is set meanwhile, one whose key is let go of, and a map that goes
    "weakmap M; new A; new B; wmset M A B; weakref W A; weakref V B; let A null; let B null; / collectlater; deref A W; "
    "let B null; / wmget B M A; say B; deref W V; same A B W; say A",
    "weakmap M; new A; new B; wmset M A B; weakref W A; let A null; let B null; / collectlater; deref A W; wmdelete X M A; "
    "say X; wmset M A A; / wmget B M A; say B",
    "weakmap M; new A; new B; wmset M A B; weakref W B; let B null; / collectlater; let A null; / deref B W; say B; "
    "let B null; / collect; deref B W; say B",
    "weakmap M; new A; new B; wmset M A B; weakref W M; weakref V B; let M null; let B null; / collectlater; deref B V; "
    "/ deref M W; say M; say B; let B null; / collect",
    "weakmap M; weakmap N; new A; new B; wmset M A N; wmset N A B; weakref W A; weakref V B; let A null; let B null; "
    "let N null; / collectlater; deref A W; / wmget N M A; wmget B N A; say B; deref W V; same A B W; say A",
    # members
    "weakset S; new A; wsadd S A; weakref W A; let A null; / collectlater; wsadd S W; wshas X S W; say X; / deref A W; say A; "
    "wshas X S W; say X",
    "weakset S; new A; wsadd S A; weakref W A; let A null; / collectlater; deref A W; wsdelete X S A; say X; / wshas X S A; "
    "say X; say A",
    # registrations: a target that goes, one that a deref gives, one that is unregistered or registered meanwhile, and a
    # held value that nothing else holds
    "registry f cb; new A; let B 5; register f A B; let A null; collectlater; say B; / say held",
    "registry f cb; new A; weakref W A; let B 5; register f A B; let A null; / collectlater; deref A W; let A null; / collect",
    "registry f cb; new A; new C; let B 5; register f A B C; let A null; collectlater; unregister X f C; say X; / collect",
    "registry f cb; new A; weakref W A; let B 5; let A null; / collectlater; deref A W; register f A B; let A null; "
    "/ collectlater; / say held",
    "registry f cb; new A; new B; new C; register f A B C; weakref W B; let B null; / collectlater; unregister X f C; "
    "/ deref B W; say B; let B null; / collect; deref B W; say B",
    "registry f cb; new A; new B; register f A B; weakref W B; let A null; let B null; / collectlater; / let held null; "
    "deref B W; say B; let B null; / collectlater; / deref B W; say B",
    "registry f cb; registry g _x; new A; let B 1; let C 2; register g A B; register f A C; let A null; collectlater; keys A",
]

# Talks of two agents or more, in words as lives are; at a bar the next agent begins. `@0` is the first agent's name. `on`
# is no command: it begins a job that waits for a message of an agent, for a variable.
TALKS = [
    # a block that two use, one after the other
    "buffer A 4; store A 0 7; post @1 A; load X A 1; say X | on @0 M; load X M 0; say X; store M 1 9; say M",
    "buffer A 1; post @1 A; / on @1 M; load X A 0; say X; add X A 0 1; say X "
    "| on @0 M; add X M 0 -1; say X; let Y 1; post @0 Y; / load X M 0; say X",
    # one block that is posted twice, and one that comes back: other objects over the same block
    "buffer A 2; post @1 A; post @1 A "
    "| on @0 M; copy A M; / on @0 M; same X A M; say X; sameblock Y A M; say Y; store A 0 3; add X M 0 4; say X; "
    "load X A 0; say X",
    "buffer A 1; post @1 A; / on @1 M; same X A M; say X; sameblock Y A M; say Y; store M 0 5; load X A 0; say X "
    "| on @0 M; post @0 M; load X M 0; say X",
    # two blocks of the same size
    "buffer A 3; buffer B 3; sameblock X A B; say X; post @1 A; post @1 B; copy B A; sameblock X A B; say X "
    "| on @0 M; copy A M; / on @0 M; sameblock X A M; say X; length Y M; say Y; store A 2 1; load Y M 2; say Y",
    # a block that lives in a message alone, and is taken, or drained; and one that both gave up
    "buffer A 2; store A 1 -1; post @1 A; let A null; collect | on @0 M; load X M 1; say X; let M null; collect",
    "buffer A 2; post @1 A; let A null; collect | let X 1; say X",
    "buffer A 1; post @1 A; let A null; collect; / on @1 M; load X M 0; say X "
    "| on @0 M; store M 0 5; post @0 M; let M null; collect",
    # one block for two receivers, who add to the same word
    "buffer A 2; post @1 A; post @2 A; let A null; collect "
    "| on @0 M; add X M 0 1; say X "
    "| on @0 M; add X M 0 1; say X; length Y M; say Y; let M null; collect",
    # a block that goes from hand to hand
    "buffer A 1; store A 0 1; post @1 A; let A null; collect "
    "| on @0 M; add X M 0 1; post @2 M; let M null; collect "
    "| on @1 M; add X M 0 1; say X; load X M 0; say X",
    # words modulo 2^32, and indexes that there are and that there are not
    "buffer A 1; store A 0 -1; load X A 0; say X; add Y A 0 2; say Y; load Z A 0; say Z; post @1 A "
    "| on @0 M; store M 0 9007199254740991; add X M 0 9007199254740991; say X; load X M 0; say X",
    "buffer A 0; length X A; say X; post @1 A; load X A 0 | on @0 M; length X M; say X; store M 0 0",
    "buffer A 2; post @1 A; post @1 A; post @1 A "
    "| on @0 M; load X M 2; / on @0 M; store M -1 0; / on @0 M; add X M 2 1; / say X; add X M 1 1; say X; "
    "load X M 4294967296",
    # values of each kind that can be posted, in their order
    "let A 1; post @1 A; symbolfor B k; post @1 B; post @1 C; same X A B; post @1 X; let A k; post @1 A "
    "| on @0 M; say M; / on @0 M; symbolfor A k; same X A M; say X; say M; / on @0 M; say M; / on @0 M; say M; "
    "/ on @0 M; say M; / on @0 M; say M",
    # what can't be posted: the job ends, and nothing is posted
    "new A; post @1 A; say A | on @0 M; say M",
    "symbol A; let B 1; post @1 B; post @1 A; post @1 B | on @0 M; say M; / on @0 M; say M",
    "buffer A 1; weakref W A; new B; set B p A; post @1 A; post @1 W; / post @1 B; / post @1 A "
    "| on @0 M; say M; keys M",
    "weakmap A; post @1 A; / weakset A; post @1 A; / registry A cb; post @1 A | on @0 M",
    # what is no buffer, and what is none any more
    "new A; length X A "
    "| length X A "
    "| buffer A 1; sameblock X A B "
    "| buffer A 1; sameblock X B A; / copy B X; load B A 0",
    "buffer A 1; let X 5; load X A 1; / say X; store X 0 1; / add X X 0 1; / buffer X 1; add X X 0 7; say X; "
    "load X X 0 "
    "| say X",
    # agents that have ended: their messages are there to be taken, and then the others are skipped
    "let A 1; post @1 A | on @0 M; say M; / on @0 M; say M; / say M",
    " | let M 5; / on @0 M; say M; / say M",
    "on @1 M; say M; / let A 1; post @1 A | on @0 M; say M; / on @0 M; say M",
    # who waits for each other: the first is skipped, and goes on
    "on @1 M; / let X 1; post @1 X | on @0 M; say M; post @0 M",
    "on @1 M; say M; / let X 1; post @1 X; / on @1 M; say M | on @0 M; say M; post @0 M; / on @0 M; say M",
    "on @2 M; say M; / let X 1; post @1 X | on @0 M; say M; post @2 M | on @1 M; say M; post @0 M",
    "on @1 M; say M | on @2 M; say M; post @0 M | let X 1; post @1 X",
    "on @1 M; say M | on @2 M; say M; / let X 2; post @0 X; / on @2 M; say M | on @0 M; say M; / let X 1; post @1 X",
    # of two senders each has a port
    "let X 1; post @2 X; / let X 3; post @2 X "
    "| let X 2; post @2 X "
    "| on @1 M; say M; / on @0 M; say M; / on @0 M; say M",
    # a message for one who has ended
    "on @1 M; say M; buffer A 1; post @1 A; / collect | let X 1; post @0 X",
    # a received buffer has the next number, is held weakly like another, and is kept by what it is in
    "buffer A 1; post @1 A; post @1 A; let A null; collect "
    "| new A; / on @0 M; say M; weakref W M; let M null; collect; / collect; deref M W; say M; let M null; / on @0 M; "
    "say M; symbol A; say A",
    "buffer A 1; weakref W A; post @1 A; let A null; / collect; deref A W; say A "
    "| on @0 M; weakmap N; wmset N M M; wmget A N M; sameblock X A M; say X; let A null; let M null; collect",
    "buffer A 1; set A p A; keys A; get B A p; sameblock X A B; say X; weakset S; wsadd S A; wshas X S B; say X; "
    "post @1 A; let A null; collect; let B null; collect "
    "| on @0 M; keys M; new A; set A p M; let M null; collect; get M A p; load X M 0; say X",
    # a buffer as a target, a token and a held value, and callbacks that use and post it
    "registry f cb; buffer A 1; let X 1; register f A X A; post @1 A; let A null; collect | on @0 M; load X M 0; say X",
    "registry f cb; new A; buffer B 2; register f A B; let A null; let B null; collect; / collect; / let held null; "
    "collect "
    "| on @0 M; load X M 0; say X; / on @0 M; say M",
    "on @1 M; registry f cb; new A; register f A M; let A null; let M null; collect "
    "| buffer A 1; post @0 A; / on @0 M; sameblock X A M; say X; load X A 0; say X",
    # a buffer that a message brings, and one that goes at the end of the job in which its block is used
    "buffer A 2; store A 1 3; post @1 A; let A null; collect; / on @1 M; load X M 1; say X "
    "| on @0 M; weakref W M; post @0 M; let M null; collect; deref M W; load X M 1; say X; let M null; / collect",
    # what a message's variable holds lasts, and a skip leaves it as it is
    "buffer A 1; store A 0 8; post @1 A; / post @1 A "
    "| on @0 M; / collect; load X M 0; say X; / on @0 M; / on @0 M; load X M 0; say X; collect",
    # a job that was refused has taken its message all the same
    "let X 1; post @1 X; let X 2; post @1 X; / on @1 M; say M | on @0 M; keys M; post @0 M; / on @0 M; say M",
]

# What callbacks do, in words; capitals stand for variables here too, and the others are those of PLACES and TOKENS
CALLS = [
    "", "say held", "say held; say held", "say held; let held null",
    # what WeakRefs lead to in a cleanup job
    "deref A u; say A", "say held; deref A v; deref B u; say B; let A null; let B null", "weakref u held",
    # properties, of the held value too
    "set held p held", "say held; set held p held; keys held", "set f p held", "get A f p; say A; set A q held; keys A",
    # registrations anew, with the same FinalizationRegistry and with another
    "new A; register f A held; let A null", "new A; register f A held A", "say held; new A; register g A A; say A",
    "register f held B; say held", "new A; let B 1; register f A B C; unregister X f C; say X",
    "registry A cb; new B; register A B held; let B null; copy f A", "new A; set held p A; register g A A held",
    # a callback may unregister what awaits as well
    "unregister X f A; say X", "say held; unregister X f A; let X null", "unregister X f held; say X",
    "unregister X g held; unregister Y f B; say X; say Y", "get A held p; unregister X f A; say X",
    "say held; unregister X f t; say X", "unregister X g k; say X; new A; register g A A",
    "unregister X g t; say X; keys X", "unregister X f k; say X; new A; register f A X k; let A null",
    "say held; unregister X g t; unregister Y f k; say Y",
    # refusals, of some held values and of all
    "say held; deref A held; say A", "keys held", "say f; keys z", "copy A held; say A; wmget B m A",
    "same X held A; say X; set z p z; say X", "copy z A; say held; set z p held",
    "wmset m held A; wmget B m held; say B", "wsadd s held; wshas X s held; say X", "symbol A; say A",
]
# The same of agents that share blocks, in which `@1` is another agent
SHARED_CALLS = [
    "load A held 0; say A; add A held 0 1; store held 1 9", "add A held 0 1; say A; post @1 held; let held null",
    "post @1 held; let held null", "post @1 held; say held", "buffer A 1; store A 0 7; post @1 A; let A null", "buffer d 2",
    "say held; post @1 f", "length A held; say A; sameblock A held d; say A", "let A 1; post @1 A", "store d 0 5; post @1 d",
    "new A; register f A held; post @1 A", "buffer A 3; new B; register f B A; let A null; let B null", "add A d 0 1; say A",
]

# Commands for spoiled plans: `collect`, written rightly and wrongly, and other faults
COLLECTS = [
    ["collect"], ["collect", "x"], ["collect", None], ["collect", []], ["collect", "1x"],
    ["collects"], ["Collect"], ["collect "], ["collectlater"], ["collectlater", "x"], ["collectlater", None], ["collectLater"],
]
FAULTS = [
    ["new"], ["new", 1], ["new", "1x"], ["let", "x", 1.5], ["let", "x", "\u00e9"], ["let", "1x", 1.5], ["let", "1x", []],
    ["weakmap"], ["weakset", "x", "x"], ["wmset", "x", "x"], ["wmset", "x", "1x", None], ["wmget", "x", "x", "1x"],
    ["wmhas", "1x", "x", 1], ["wmdelete", "x", "x-", "x"], ["wsadd", "x"], ["wsadd", "x", "x", "x"], ["wshas", "x", "x"],
    ["wsdelete", "x", "", "x"], ["WeakMap", "x"], ["wmclear", "x"],
    ["registry"], ["registry", "x"], ["registry", "x", None], ["registry", "1x", []], ["registry", "x", "cb", "cb"],
    ["registry", "1x", "nobody"], ["registry", "x", "1x"], ["registry", "x", ""], ["registry", "x", "nobody"],
    ["registry", "x", "cB"], ["registry", "x", "cb"], ["registry", "x", "B"], ["register", "x", "x"],
    ["register", "x", "x", None], ["register", "x", "x", "1x"], ["register", "x", "x", "x", None],
    ["register", "x", "x", "x", "1x"], ["register", "x", "1x", "x", []], ["register", "x", "x", "x", "x", "x"],
    ["unregister", "x", "x"], ["unregister", "x", "x", "x", "x"], ["unregister", "x", "x-", "x"],
    ["Register", "x", "x", "x"],
]
SHARED_FAULTS = [
    ["buffer"], ["buffer", "x"], ["buffer", "x", 1, 1], ["buffer", "x", "1"], ["buffer", "x", None], ["buffer", "1x", True],
    ["buffer", "x", 0], ["buffer", "x", 16384], ["buffer", "x", 16385], ["buffer", "1x", 16385], ["buffer", "x", -1],
    ["buffer", "y", 16385], ["buffer", "y", -9007199254740991], ["buffer", "y", 16384], ["buffer", "x", 1.5],
    ["buffer", "x", -0.0], ["buffer", "x", 9007199254740992], ["buffer", "1x", []],
    ["length", "x"], ["length", "x", 1], ["length", "x", "x-"], ["length", "x", "x", "x"],
    ["sameblock", "x", "x"], ["sameblock", "x", "x", "1x"], ["sameblock", "x-", "x", 1], ["sameBlock", "x", "x", "x"],
    ["load", "x", "x"], ["load", "x", "x", "0"], ["load", "x", "x", -1], ["load", "x", "1x", 1.5], ["load", "1x", "x", "x"],
    ["load", "x", "x", 9007199254740992], ["load", "x", "x", None], ["load", "x", "x", 0, 0],
    ["store", "x", 0], ["store", "x", 0, None], ["store", "x", "0", 0], ["store", "x", -0.0, "1x"], ["store", "x-", 1.5, 1],
    ["store", "x", 1, 9007199254740992], ["store", "x", 1e3, 1.0], ["store", "x", 16384, -9007199254740991],
    ["add", "x", "x", 1], ["add", "x", "x", 1, "x"], ["add", "x", "x", 1, 1, 1], ["add", "x", "x", 1, 1.5],
    ["add", "x", "1x", 1.5, 1], ["add", "x", "x", True, 1], ["add", "x", "x", -1, -1],
    ["post"], ["post", "main"], ["post", "main", 1], ["post", 1, "x"], ["post", "main", "x", "x"], ["post", None, "1x"],
    ["post", "1x", "1x"], ["post", "", "x"], ["post", "nobody", "1x"], ["post", "main", "1x"], ["post", "A", "x"],
    ["post", "a", "x"], ["post", "main", "x"], ["post", "w", "x"], ["post", "B", "x"], ["receive", "x"], ["wait", "x"],
]


def uses(rng, word):
    """What the command's operands are for, of those that it has this time."""
    return USES[word] + (ONE_MORE_USE.get(word, "") if rng.random() < 0.6 else "")


def operand(rng, use, others=()):
    drawn_from = {
        "l": LITERALS, "t": ["", "k", "a text"], "k": KEYS, "c": CALLBACKS,
        "z": SIZES, "i": INDEXES, "n": NUMBERS, "a": others,
    }
    return rng.choice(drawn_from.get(use, NAMES))


def command(rng):
    """Any command of an agent alone. The operands that are names of variables are drawn from few, whatever these hold."""
    others = [word for word in ALONE if word not in WEAK_TABLES]
    often = ["new", "set", "weakref", "deref", "say", "collect"]
    word = rng.choice(WEAK_TABLES if rng.random() < 0.15 else others + often * 2)
    return [word, *(operand(rng, use) for use in uses(rng, word))]


def shared_command(rng, others):
    """Any command, half of them of those on blocks and messages; these are the other agents."""
    word = rng.choice(SHARING)
    if rng.random() < 0.5 or (word == "post" and not others):
        return command(rng)
    return [word, *(operand(rng, use, others) for use in uses(rng, word))]


def callback(rng, others=()):
    """What a callback does, now and then with any command, even with one that a callback can't have. Where there are
    others, they may be posted to."""
    unregistering = [text for text in CALLS if "unregister" in text]
    run = [*written(rng, rng.choice(unregistering if rng.random() < 0.2 else CALLS))]
    if others and rng.random() < 0.5:
        run = [*written(rng, rng.choice(SHARED_CALLS), ["", rng.choice(others)])]
    if rng.random() < 0.15:
        drawn = shared_command(rng, others) if others else command(rng)
        if drawn != ["collect"] or rng.random() < 0.05:
            run.insert(rng.randint(0, len(run)), drawn)
    return run


def named(runs):
    """The names of callbacks in these commands."""
    return {step[2] for run in runs for step in run if step[0] == "registry"}


def plan_of(rng, jobs_of, version=1):
    """A plan of one to three agents, each with what `jobs_of` gives for its callbacks."""
    agents = []
    for name in rng.sample(["a", "main", "w", "B", "_"], rng.randint(1, 3)):
        calls = {call: callback(rng) for call in rng.sample(CALLBACKS, len(CALLBACKS))}
        jobs = jobs_of(rng, calls)
        # A callback that nothing names may be left out, and once in a while one that something names.
        kept = named([*jobs, *calls.values()])
        calls = {call: run for call, run in calls.items() if rng.random() < (0.998 if call in kept else 0.5)}
        agents.append({"name": name, "callbacks": calls, "jobs": [{"run": run} for run in jobs]})
    plan = {"version": version, "agents": agents}
    return with_laters(rng, plan) if version == 2 and jobs_of is not laters else plan


def with_laters(rng, plan):
    """The plan with later collections in some jobs, in the place of collections and elsewhere."""
    for agent in plan["agents"]:
        agent["jobs"] = [part for job in agent["jobs"] for part in later_job(rng, job)]
    return plan


def later_job(rng, job):
    """A job with later collections, and mostly the next jobs, each from where it would be refused to collect."""
    run = [["collectlater"] if step == ["collect"] and rng.random() < 0.4 else step for step in job["run"]]
    if rng.random() < 0.3:
        run.insert(rng.randint(0, len(run)), ["collectlater"])
    parts = [[]]
    for step in run:
        if step[:1] in COLLECTING and ["collectlater"] in parts[-1] and rng.random() < 0.95:
            parts.append([])
        parts[-1].append(step)
    return [{**job, "run": parts[0]}, *({"run": part} for part in parts[1:])]


def any_jobs(rng, _calls):
    return [[command(rng) for _ in range(rng.randint(0, 25))] for _ in range(rng.randint(0, 6))]


def written(rng, text, agents=()):
    """Commands in words, their capitals replaced by variables, `@0` and the like by agents, and None where a job ends."""
    words = text.replace(";", " ;").split()
    capitals = sorted({word for word in words if word.isupper()})
    names = dict(zip(capitals, rng.sample(NAMES, len(capitals))))
    names.update((f"@{number}", agent) for number, agent in enumerate(agents))
    if not words:
        return
    for piece in " ".join(names.get(word, word) for word in words).split(" ; "):
        if piece.startswith("/"):
            yield None
        words = piece.removeprefix("/").split()
        yield [None if word == "null" else int(word) if word.removeprefix("-").isdigit() else word for word in words]


def life(rng, drawn_from=LIVES):
    """One of the lives; with a callback that was not written into it, where it has one."""
    for step in written(rng, rng.choice(drawn_from)):
        yield [*step[:2], rng.choice(CALLBACKS)] if step and step[0] == "registry" else step


def chain(rng):
    """A chain of entries, each one's value the key of the next, that are set forward, backward or in any order, in one
    map or in two, of which an entry of the first may alone lead to the second; what a collection leaves of it."""
    m, n, first, holder, at, to = rng.sample(NAMES, 6)
    length = rng.randint(2, 12)
    maps = [m, rng.choice([m, n])]
    yield from [["weakmap", m], ["weakmap", n], ["new", holder]]
    for number in range(length + 1):
        yield [rng.choice(["new"] * 4 + ["symbol"] * 2 + ["weakmap", "weakset"]), at]
        yield ["set", holder, f"k{number}", at]
    links = [(rng.choice(maps), number) for number in range(length)]
    for table, number in rng.choice([links, links[::-1], rng.sample(links, length)]):
        yield from [["get", at, holder, f"k{number}"], ["get", to, holder, f"k{number + 1}"], ["wmset", table, at, to]]
    yield from [["get", first, holder, "k0"], ["get", to, holder, f"k{length}"]]
    # From here on the first key alone is held, and a WeakRef to the last, in the holder's place.
    yield from [["let", holder, None], ["let", at, None], ["weakref", holder, to], ["let", to, None]]
    if inner := rng.random() < 0.4:
        yield from [["wmset", m, m, n], ["let", n, None]]
    if rng.random() < 0.2:
        yield ["let", first, None]
    yield None
    yield from [["collect"], ["deref", to, holder], ["say", to], ["let", to, None], ["copy", at, first]]
    if inner:
        yield ["wmget", n, m, m]
    for table, number in links[: rng.randint(0, length)]:
        yield rng.choice([["wmget", at, table, at]] * 9 + [["wmdelete", to, table, at]])
        yield ["say", at]
    yield None
    yield from [["collect"], ["deref", to, holder], ["say", to]]


def suits(agent, use, name):
    """Whether the variable holds what an operand of this use must be."""
    if use == "v":
        return True
    value = agent.value(name)
    if use == "h":
        return value[0] in ("object", "symbol")
    right = {
        "o": agent.properties, "w": agent.targets, "m": agent.entries, "s": agent.members, "r": agent.registries,
        "b": agent.buffers,
    }
    return value[0] == "object" and value[1] in right[use]


# how often the commands come where most suit what the variables hold
OFTEN_TABLES = dict.fromkeys(ALONE, 1) | {
    "let": 8, "new": 12, "symbol": 5, "set": 6, "get": 6, "copy": 4, "weakref": 8, "deref": 8, "collect": 6, "weakmap": 4,
    "wmset": 26, "wmget": 16, "wmhas": 6, "wmdelete": 4, "wsadd": 8, "wshas": 6, "weakset": 2, "register": 3,
}
OFTEN_REGISTRATIONS = dict.fromkeys(ALONE, 1) | {
    "let": 10, "new": 15, "symbol": 6, "set": 4, "get": 3, "copy": 3, "weakref": 4, "deref": 3, "collect": 9, "wmset": 3,
    "registry": 3, "register": 45, "unregister": 12,
}
OFTEN_LATER = OFTEN_TABLES | {
    "collect": 3, "collectlater": 10, "weakref": 16, "deref": 20, "let": 14, "registry": 3, "register": 12, "unregister": 3,
}
OFTEN_SHARED = dict.fromkeys([*ALONE, *SHARING], 1) | {
    "let": 8, "new": 6, "copy": 5, "set": 3, "get": 3, "weakref": 4, "deref": 4, "collect": 6, "weakmap": 2, "wmset": 5,
    "wmget": 4, "registry": 2, "register": 6, "buffer": 14, "length": 4, "sameblock": 8, "load": 14, "store": 14, "add": 16,
    "post": 34,
}
OFTEN_SHARED_LATER = OFTEN_SHARED | {"collect": 3, "collectlater": 8, "weakref": 10, "deref": 12}


def variables(often):
    """The variables that suited commands have."""
    return NAMES + ["held"] + TOKENS + [name for word, places in PLACES.items() if word in often for name in places]


def index(rng, agent, name):
    """An index, most often of a word of the buffer in the variable."""
    words = len(agent.words(name)) if suits(agent, "b", name) else 0
    if words and rng.random() < 0.95:
        return rng.choice([0, 0, words - 1, rng.randrange(words)])
    return rng.choice([words, -1, *INDEXES])


def to_post(rng, agent, names):
    """A variable whose value can be posted, mostly; often one with a buffer."""
    buffers = [name for name in names if suits(agent, "b", name)]
    others = [name for name in names if agent.value(name)[0] not in ("object", "symbol")]
    if buffers and rng.random() < 0.65:
        return rng.choice(buffers)
    return rng.choice(others if others and rng.random() < 0.95 else names)


def suited(rng, agent, often):
    """A command whose operands mostly suit what the agent's variables hold, and what may follow it at once."""
    names = variables(often)
    while True:
        word = rng.choices(list(often), list(often.values()))[0]
        args, refused = [], False
        for use in uses(rng, word):
            if use == "x" and word in PLACES and rng.random() < 0.7:
                args.append(rng.choice(PLACES[word]))
            elif use == "x" and word in ANSWERING and rng.random() < 0.7:
                args.append("z")
            elif use == "x":
                args.append(rng.choice(NAMES if rng.random() < 0.97 else names))
            elif use == "l" and rng.random() < 0.8:
                args.append(None)
            elif use in "kltczn":
                args.append(operand(rng, use))
            elif use == "i":
                args.append(index(rng, agent, args[-1]))
            elif use == "a":
                args.append(agent.receiver())
            elif word == "post":
                args.append(to_post(rng, agent, names))
            else:
                right = [name for name in names if suits(agent, use, name)]
                if word == "register" and use == "v" and rng.random() < 0.9:
                    # Most held values are something, and another thing than the target.
                    others = [("undefined",), agent.value(args[1])]
                    right = [name for name in names if agent.value(name) not in others]
                elif len(args) == 3 and rng.random() < 0.6:
                    right = [name for name in TOKENS if suits(agent, use, name)] or right
                refused = refused or not right
                args.append(rng.choice(right if right and rng.random() < 0.98 else names))
        if not refused or rng.random() < 0.02:
            break
    if word == "wmget" or (word in ASKING and rng.random() < 0.6):
        # Of all that could be asked for, something that the map or set has, where there is such.
        number = agent.value(args[1])[-1]
        held = agent.entries.get(number) or agent.members.get(number) or []
        args[2] = rng.choice([name for name in names if agent.value(name) in held] or [args[2]])
    if word == "unregister" and rng.random() < 0.8:
        number = agent.value(args[1])[-1]
        tokens = [cell.token for cell in agent.cells.values() if cell.registry == number and cell.token[0] != "undefined"]
        args[2] = rng.choice([name for name in names if agent.value(name) in tokens] or [args[2]])
    if word == "sameblock" and suits(agent, "b", args[1]) and rng.random() < 0.6:
        # Another buffer over the same block, where there is one.
        same = [name for name in names if suits(agent, "b", name) and agent.block(name) == agent.block(args[1])]
        others = [name for name in same if agent.value(name) != agent.value(args[1])]
        args[2] = rng.choice(others or same)
    yield [word, *args]
    if word in TELLING and rng.random() < 0.7:
        yield ["say", args[0]]
    if word in ("set", "wmset", "wsadd", "weakref", "post") and rng.random() < (0.3 if word == "post" else 0.5):
        # Now something else may hold it, or nothing.
        yield ["let", args[-1], None]
    if word == "register" and rng.random() < 0.6:
        # Of the target, the held value and the token, some are held by nothing else from now on.
        for name in rng.choice([args[1:2], args[1:2], args[1:3], args[1:]]):
            if name not in TOKENS or rng.random() < 0.1:
                yield ["let", name, None]


def batch(rng):
    """Several registrations whose targets go together, most with a token that stays."""
    at, held = rng.sample(NAMES, 2)
    for number in range(rng.randint(2, 5)):
        made = "new" if rng.random() < 0.7 else "symbol"
        yield from [[made, at], ["let", held, number] if rng.random() < 0.7 else ["new", held]]
        token = rng.choice([[], [at], [held], *([name] for name in TOKENS * 3)])
        yield ["register", rng.choice(PLACES["registry"]), at, held, *token]
    yield from [["let", at, None], ["collect"]]


def without_collections(calls):
    """A plan with a callback that collects is refused. Where commands are tried none does: it might never come to its
    end."""
    return {call: [step for step in run if step[:1] not in COLLECTING] for call, run in calls.items()}


def ends_before(agent, step):
    """How often a job ends before this command; mostly where it could not collect there."""
    if step not in COLLECTING:
        return 0.03
    return 0.95 if agent.open else 0.6 if step == ["collect"] else 0.2


def suited_jobs(rng, calls, often):
    """Jobs of suited commands, and at last what the maps, sets and WeakRefs still have, and which registrations are
    left when nothing is held any more."""
    agent = rules.Agent({"name": "a", "callbacks": without_collections(calls), "jobs": []}, rules.Ledger())
    jobs = [[]]

    def do(step):
        jobs[-1].append(step)
        try:
            agent.do(step[0], step[1:])
        except rules.TypeRefused:
            jobs[-1] += [command(rng) for _ in range(rng.randint(0, 2))]
            end()

    def end():
        for _ in [*agent.job_end(), *agent.cleanup_jobs()]:
            pass
        jobs.append([])

    if often is OFTEN_REGISTRATIONS:
        for name in PLACES["registry"]:
            do(["registry", name, rng.choice(CALLBACKS)])
        for name in TOKENS:
            do([rng.choice(["new", "new", "symbol"]), name])
    for _ in range(rng.randint(20, 120)):
        batched = often is OFTEN_REGISTRATIONS and rng.random() < 0.04
        for step in batch(rng) if batched else suited(rng, agent, often):
            if rng.random() < ends_before(agent, step):
                end()
            do(step)
    end()
    do(["collect"])
    for name in NAMES:
        do(["say", name])
        for word, kind in [("wmget", "weakmap"), ("wshas", "weakset")]:
            for table in PLACES[kind]:
                if suits(agent, word[1], table):
                    do([word, "z", table, name])
                    do(["say", "z"])
    for name in PLACES["weakref"]:
        if suits(agent, "w", name):
            do(["deref", "z", name])
            do(["say", "z"])
    if rng.random() < 0.5:
        end()
        for name in [*agent.variables]:
            do(["let", name, None])
        do(["collect"])
    return jobs


def tables(rng, calls):
    return suited_jobs(rng, calls, OFTEN_TABLES)


def registrations(rng, calls):
    return suited_jobs(rng, calls, OFTEN_REGISTRATIONS)


def laters(rng, calls):
    return suited_jobs(rng, calls, OFTEN_LATER)


def lives(rng, _calls, drawn_from=LIVES):
    """Jobs of lives, one after the other, in which jobs end, and other commands stand, here and there."""
    jobs = [[]]
    for _ in range(rng.randint(1, 8)):
        steps, odd = (chain(rng), 0.003) if rng.random() < 0.1 else (life(rng, drawn_from), 0.05)
        for step in steps:
            if step is None or rng.random() < 0.1:
                jobs.append([])
            if rng.random() < odd:
                jobs[-1].append(rng.choice([["collect"], command(rng)]))
            if step is not None:
                jobs[-1].append(step)
    return jobs + [[["collect"], *(["say", name] for name in NAMES), ["collect"]]]


def later_lives(rng, calls):
    return lives(rng, calls, LATER_LIVES * 2 + LIVES)


class Growing(rules.Agent):
    """An agent of which each job, and each command of it, is chosen when the agent comes to it."""

    def __init__(self, rng, plan, ledger, agents, often):
        calls = {call: [*map(as_read, run)] for call, run in without_collections(plan["callbacks"]).items()}
        super().__init__({**plan, "callbacks": calls}, ledger)
        self.rng, self.agents, self.left = rng, agents, rng.choice([0, 1, 2, 3, 4, 5, 6, 8])
        self.often = often

    def others(self):
        return [name for name in self.agents if name != self.name]

    def next_job(self):
        if self.done == len(self.jobs) and self.left > 0:
            self.left -= 1
            self.jobs.append({"run": [], **self.waiting()})
        return super().next_job()

    def waiting(self):
        """What the next job waits for, if it does."""
        if self.others() and self.rng.random() < 0.55:
            return {"on": [self.sender(), self.rng.choice(NAMES + PLACES["buffer"])]}
        return {}

    def sender(self):
        """Whom the next job waits for: one of whom a message is there, or one that has not ended, or any."""
        there = [name for name in self.others() if self.ledger.ports[name, self.name]]
        going = [name for name in self.others() if not self.agents[name].ended]
        return self.rng.choice(self.rng.choice([there] * 6 + [going] * 4 + [[]]) or self.others())

    def receiver(self):
        """Whom a message is for: one that waits for it, or any."""
        waiting = [name for name in self.others() if self.agents[name].waits_for(self.name)]
        return self.rng.choice(waiting if waiting and self.rng.random() < 0.5 else self.others() or ["nobody"])

    def waits_for(self, sender):
        return self.done < len(self.jobs) and self.jobs[self.done].get("on", [None])[0] == sender

    def job(self, job):
        line = ""
        for line in super().job({**job, "run": self.grown(job["run"])}):
            yield line
        if line.startswith("error "):
            # Nothing after it is done.
            job["run"] += [command(self.rng) for _ in range(self.rng.randint(0, 2))]

    def grown(self, run):
        """The commands of a job, as they are read, which are added to it in the plan."""
        for steps in self.look() if self.left == 0 and self.rng.random() < 0.8 else self.chosen():
            for step in steps:
                run.append(step)
                yield as_read(step)

    def chosen(self):
        often = self.often if self.others() else self.often | {"post": 0}
        if self.done == 1 and self.rng.random() < 0.7:
            yield [["registry", name, self.rng.choice(CALLBACKS)] for name in PLACES["registry"]]
            yield [["buffer", name, self.rng.choice(SIZES)] for name in PLACES["buffer"]]
        for _ in range(self.rng.randint(0, 16)):
            yield suited(self.rng, self, often)

    def look(self):
        """What the variables hold at last, and the words of their buffers."""
        for name in variables(OFTEN_SHARED):
            yield [["say", name]]
            if suits(self, "b", name):
                yield [["length", "z", name], ["say", "z"]]
                for at in range(min(len(self.words(name)), 4)):
                    yield [["load", "z", name, at], ["say", "z"]]


def as_read(step):
    """A command as rules.py reads it."""
    return json.loads(json.dumps(step), parse_int=rules.Number)


def grown(rng, agents, often=OFTEN_SHARED):
    ledger, growing = rules.Ledger(), {}
    for agent in agents:
        growing[agent["name"]] = Growing(rng, agent, ledger, growing, often)
    rules.run_turns(growing)


def later_grown(rng, agents):
    grown(rng, agents, OFTEN_SHARED_LATER)


def others_of(agent, agents):
    return [other["name"] for other in agents if other is not agent]


def roles(talk):
    return [text.strip() for text in talk.split("|")]


def talks(rng, agents):
    """Talks, one after the other, and lives between them, in which jobs end, and other commands stand, here and there."""
    for _ in range(rng.randint(1, 6)):
        talk = rng.choice([talk for talk in map(roles, TALKS) if len(talk) <= len(agents)])
        speaking = rng.sample(agents, len(talk))
        names = [agent["name"] for agent in speaking]
        for agent, text in zip(speaking, talk):
            run_on(rng, agent, [None, *written(rng, text, names)], others_of(agent, agents))
        if rng.random() < 0.25:
            agent = rng.choice(agents)
            run_on(rng, agent, [None, *life(rng)], others_of(agent, agents))
    if rng.random() < 0.15:
        rng.shuffle(rng.choice(agents)["jobs"])
    for agent in agents:
        if rng.random() < 0.5:
            agent["jobs"].append({"run": [["collect"], *(["say", name] for name in NAMES)]})


def run_on(rng, agent, steps, others):
    """Puts commands last into an agent's jobs, and the jobs that they begin."""
    jobs = agent["jobs"]
    for step in steps:
        begins = step is not None and step[0] == "on"
        if step is None or (not begins and rng.random() < 0.05):
            jobs.append({"run": []})
        if rng.random() < 0.03:
            jobs[-1]["run"].append(shared_command(rng, others))
        if begins:
            jobs[-1]["on"] = step[1:]
        elif step is not None:
            jobs[-1]["run"].append([*step[:2], rng.choice(CALLBACKS)] if step[0] == "registry" else step)


def waits(rng, agents):
    """Jobs that wait, for the next agent, for the one before, or for any, and few messages; or too many."""
    names = [agent["name"] for agent in agents]
    to = rng.choice([[1], [-1], [1, -1], [*range(1, len(names))]])
    for number, agent in enumerate(agents):
        for _ in range(rng.randint(0, 5)):
            run, near = [["let", "x", rng.randint(0, 99)]], [names[(number + step) % len(names)] for step in to]
            near = [name for name in near if name != agent["name"]]
            for _ in range(rng.choice([0, 0, 0, 1, 1, 2])):
                run += [["post", rng.choice(near), "x"]] if near else []
            job = {"run": [["say", "m"], *run]}
            if near and rng.random() < 0.75:
                job["on"] = [rng.choice(near), "m"]
            agent["jobs"].append(job)
    if len(names) > 1 and rng.random() < 0.15:
        # more than an agent can post, or open
        post = ["post", names[1], "y"]
        many, most = rng.choice([(post, 10000), (["buffer", "y", 1], 256), (["buffer", "y", 1], 256)])
        rest = [many, ["collect"], post, ["say", "x"], many, post, many]
        before = [many] * (most - rng.choice([1, 2, 2, 3]))
        agents[0]["jobs"] += [{"run": run} for run in (before, rest, [["new", "y"], post])]


def any_shared(rng, agents):
    for agent in agents:
        others = others_of(agent, agents)
        for _ in range(rng.randint(0, 6)):
            job = {"run": [shared_command(rng, others) for _ in range(rng.randint(0, 20))]}
            if others and rng.random() < 0.4:
                job["on"] = [rng.choice(others), rng.choice(NAMES)]
            agent["jobs"].append(job)


def shared_plan(rng, version=1):
    """A plan of agents that share blocks and post messages."""
    jobs_of = rng.choices([talks, grown if version == 1 else later_grown, waits, any_shared], [8, 9, 3, 3])[0]
    fewest = 2 if jobs_of is talks else 1
    names = rng.sample(AGENTS, max(fewest, rng.choice([1, 2, 2, 2, 3, 3, 4, 5, 6, 7, 8])))
    agents = []
    for name in names:
        others = [other for other in names if other != name]
        agents.append({"name": name, "callbacks": {call: callback(rng, others) for call in CALLBACKS}, "jobs": []})
    jobs_of(rng, agents)
    plan = {"version": version, "agents": agents}
    return with_laters(rng, plan) if version == 2 and jobs_of is not later_grown else plan


def doubtful_run(rng):
    """Few commands, faults among them; now and then as many as a run may have, or one more."""
    faults = rng.choice([FAULTS, SHARED_FAULTS])
    drawn = [["say", "x"], ["collect"], *rng.sample(COLLECTS, rng.randint(0, 2)), rng.choice(faults)]
    run = [rng.choice(drawn) for _ in range(rng.randint(0, 3))]
    if rng.random() < 0.08:
        run += [rng.choice([["collect"], ["say", "x"]])] * (rng.choice([10000, 10001]) - len(run))
    return run


def doubtful_agent(rng, name):
    """An agent whose callbacks may collect, and have other faults."""
    names = rng.sample(["cb", "B", "_x"], rng.randint(0, 3))
    if rng.random() < 0.2:
        names.append(rng.choice(["", "1x", "x-"]))
    runs = {name: doubtful_run(rng) for name in names}
    if rng.random() < 0.05:
        runs.update((f"c{number}", []) for number in range(rng.randint(997, 1001)))
    return {"name": name, "callbacks": runs, "jobs": [doubtful_job(rng) for _ in range(rng.randint(0, 2))]}


def doubtful_job(rng):
    """A job that may wait, also for an agent that it can't wait for."""
    job = {"run": doubtful_run(rng)}
    if rng.random() < 0.4:
        job["on"] = doubtful_on(rng)
    return job


def doubtful_on(rng):
    if rng.random() < 0.08:
        return rng.choice([None, "a", [], ["a"], ["a", "x", "x"], ["a", 1], [None, "x"], {"a": "x"}])
    return [rng.choice(["a", "main", "w", "B", "w", "B", "nobody", "1x"]), rng.choice(["x", "x", "x", "x-"])]


def put_fault(rng, plan):
    """Puts one command or one `on` into a plan of agents that share, which is a fault, mostly."""
    agent = rng.choice(plan["agents"])
    runs = [*agent["callbacks"].values(), *(job["run"] for job in agent["jobs"])]
    if agent["jobs"] and rng.random() < 0.3:
        rng.choice(agent["jobs"])["on"] = doubtful_on(rng)
    elif runs:
        run = rng.choice(runs)
        run.insert(rng.randint(0, len(run)), rng.choice(SHARED_FAULTS))


def doubtful_plan(rng):
    """A plan with many faults, of which the first in their order counts."""
    names = rng.sample(["a", "main", "w", "B"], rng.randint(1, 3))
    if rng.random() < 0.1:
        names.append(rng.choice(["1x", "a"]))
    return {"version": rng.choice([1, 1, 2] * 6 + [4]), "agents": [doubtful_agent(rng, name) for name in names]}


def spoil(rng, value):
    """A plan with one part changed somewhere."""
    value, parts = copy.deepcopy(value), []

    def walk(holder):
        items = holder.items() if isinstance(holder, dict) else enumerate(holder)
        for key, part in list(items):
            parts.append((holder, key))
            if isinstance(part, (dict, list)):
                walk(part)

    walk(value)
    holder, key = rng.choice(parts)
    kind = rng.randint(0, 3)
    if kind == 0:
        del holder[key]
    elif kind == 1 and isinstance(holder, list):
        holder.insert(key, rng.choice([None, 1.5, "1x", "", [], {}, *COLLECTS, *FAULTS, *SHARED_FAULTS, holder[key]]))
    elif kind == 1:
        holder[rng.choice(["x", "on", "1x", "run", "name"])] = rng.choice([[], {}, None, holder[key]])
    else:
        holder[key] = rng.choice(
            [None, True, 2, 4, 1.0, 9007199254740992, -0.0, "1x", "é", "a" * 33, "a" * 257, "", [], {}, ["say", "a"], [["say", "a"]]]
        )
    return value


def reordered(rng, value):
    """The same value, with the members of its objects in another order."""
    if isinstance(value, dict):
        members = list(value.items())
        rng.shuffle(members)
        return {key: reordered(rng, member) for key, member in members}
    if isinstance(value, list):
        return [reordered(rng, item) for item in value]
    return value


def text(rng):
    kind, version = rng.random(), rng.choice(VERSIONS)
    jobs_of = lives if kind < 0.27 else tables if kind < 0.35 else registrations if kind < 0.46 else any_jobs
    if version == 2 and kind < 0.4:
        jobs_of = later_lives if kind < 0.3 else laters
    value = doubtful_plan(rng) if kind < 0.14 else plan_of(rng, jobs_of, version) if kind < 0.53 else shared_plan(rng, version)
    if kind > 0.93:
        put_fault(rng, value)
    for _ in range(rng.choice([0, 0, 1, 1, 2] if 0.46 <= kind < 0.57 else [0, 0, 0, 0, 1])):
        value = spoil(rng, value)
    if rng.random() < 0.3:
        value = reordered(rng, value)
    data = json.dumps(value, ensure_ascii=rng.random() < 0.5, indent=rng.choice([None, None, None, 1])).encode()
    if rng.random() < 0.05:
        data = data.replace(b"null", rng.choice(ODD_JSON), 1)
    if rng.random() < 0.05:
        data = data[: rng.randint(0, len(data))]
    if rng.random() < 0.03:
        data += rng.choice([b" ", b"\n", b"{}", b"x", b"\x00"])
    if rng.random() < 0.03:
        place = rng.randint(0, len(data))
        data = data[:place] + rng.choice([b"\xff", b",", b"\xc3\xa9", b"0"]) + data[place:]
    return data


# what a plan that runs may have, as what its report then has
PARTS = {
    "cleanups": r"^cleanup ", "blocks or messages": r"^(blocks|messages posted) [1-9]", "blocks": r"^blocks [1-9]",
    "messages": r"^messages posted [1-9]",
    "taken messages": r"^messages .* taken [1-9]", "drained messages": r"^messages .* drained [1-9]",
    "skipped jobs": r"^skipped ", "refused collections": r"^error a collection is open",
}
