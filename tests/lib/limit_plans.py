"""Plans at the limits, and texts that are long in one way: each is made for a number, and does work in proportion to it,
or to what a line says beside it."""

import json

LONGEST = 10000  # the most commands of a job
NAMES = "abcdefgh"


def written(agents, version=1):
    return json.dumps({"version": version, "agents": agents}, separators=(",", ":")).encode()


def agent(name, jobs, callbacks=None):
    made = [job if isinstance(job, dict) else {"run": job} for job in jobs]
    return {"name": name, "callbacks": callbacks or {}, "jobs": made}


def split(commands):
    """The commands in as few jobs as have room for them."""
    return [commands[at : at + LONGEST] for at in range(0, len(commands), LONGEST)]


def alone(*jobs, callbacks=None, version=1):
    """A plan of one agent, of lists of commands that are each split into jobs."""
    return written([agent("a", [job for commands in jobs for job in split(commands)], callbacks)], version)


def each(count, *commands):
    """The commands so often, with the number in the place of `#`."""
    return [[part.replace("#", str(number)) if isinstance(part, str) else part for part in command]
            for number in range(count) for command in commands]  # fmt: skip


# Texts that are long in one way


def around(text):
    """A plan whose only command has this text as its operand."""
    return b'{"version":1,"agents":[{"name":"a","callbacks":{},"jobs":[{"run":[["let","x",' + text + b"]]}]}]}"


def spaces(count):
    return around(b"1" + b" \n\t\r" * (count // 4))


def keys_again(count):
    return b'{"version":1,' + b'"agents":[],' * count + b'"agents":[{"name":"a","callbacks":{},"jobs":[]}]}'


def escapes(count):
    return around(b'"' + b"\\u00e9" * count + b'"')


def digits(count):
    return around(b"0." + b"0" * count + b"1")


def more_digits(count):
    return around(b"1" * 300 + b"." + b"7" * count)


def exponents(count):
    return around(b"1e" + b"0" * count + b"1")


def nested(count):
    return around(b"[" + b",".join([b"[" * 110 + b"]" * 110] * (count // 110)) + b"]")


def many_callbacks(count):
    """As many callbacks, of which only 1,000 are allowed, in no order of their names."""
    members = b",".join(b'"c%d":[]' % (number * 7919 % count) for number in range(count))
    return b'{"version":1,"agents":[{"name":"a","callbacks":{' + members + b'},"jobs":[]}]}'


def members(count):
    """An object of as many members in the place of a literal."""
    inner = b",".join(b'"k%d":%d' % (number * 7919 % count, number) for number in range(count))
    return around(b"{" + inner + b"}")


def agents(count):
    one = b'{"name":"a","callbacks":{},"jobs":[]}'
    return b'{"version":1,"agents":[' + b",".join([one] * count) + b"]}"


def jobs_unread(count):
    """As many commands in as many jobs, more than an agent may have."""
    job = b'{"run":[["new","x"]]}'
    return b'{"version":1,"agents":[{"name":"a","callbacks":{},"jobs":[' + b",".join([job] * count) + b"]}]}"


TEXTS = {
    "white space": (spaces, 10_000_000), "a key that stands again": (keys_again, 200_000), "escapes": (escapes, 1_000_000),
    "digits before the first": (digits, 1_000_000), "digits": (more_digits, 1_000_000),
    "digits of an exponent": (exponents, 1_000_000), "arrays": (nested, 5_000_000),
    "callbacks": (many_callbacks, 200_000), "members": (members, 200_000),
    "agents": (agents, 100_000), "jobs": (jobs_unread, 200_000),
}  # fmt: skip

# Plans that run


def commands(count):
    return alone(each(count // 4, ["let", "x", 1], ["copy", "y", "x"], ["same", "z", "x", "y"], ["let", "z", None]))


def identities(count):
    return alone(each(count, ["new", "o"]))


def blocks(count):
    """As many blocks of the largest size, each with a word at its end."""
    return alone(each(count, ["buffer", "b", 16384], ["store", "b", 16383, 7], ["load", "x", "b", 16383]))


def posts(count):
    """Each of eight agents posts as many messages, in turn to the seven others, of which some are taken."""
    made = []
    for name in NAMES:
        others = [other for other in NAMES if other != name]
        run = [["post", others[number % 7], "x"] for number in range(count)]
        taken = [{"on": [others[number % 7], "m"], "run": []} for number in range(min(count, 900))]
        made.append(agent(name, split(run) + taken))
    return written(made)


def posted_blocks(count):
    """As posts, and each message has a ticket."""
    return posts(count).replace(b'"run":[["post"', b'"run":[["buffer","x",1],["post"', 8)


def many_keys(count):
    return alone([["new", "p"], *each(count, ["set", "p", "k#", "p"])], [["keys", "p"], ["let", "p", None], ["collect"]])


def deletes_last(count):
    keys = each(count, ["set", "p", "k#", "p"])
    return alone([["new", "p"], *keys], [["delete", "x", "p", key] for _, _, key, _ in reversed(keys)], [["keys", "p"]])


def deletes_first(count):
    keys = each(count, ["set", "p", "k#", "p"])
    return alone([["new", "p"], *keys], [["delete", "x", "p", key] for _, _, key, _ in keys], [["keys", "p"]])


def keys_again_and_again(count):
    return alone([["new", "p"], *each(1000, ["set", "p", "k#", "p"])], [["keys", "p"]] * count)


def entries_of_one_key(count):
    """As many WeakMaps with an entry under one key, asked for and deleted; then the key goes."""
    made = each(count, ["weakmap", "m"], ["set", "p", "k#", "m"], ["wmset", "m", "k", "p"])
    asked = each(count // 2, ["get", "m", "p", "k#"], ["wmget", "x", "m", "k"], ["wmdelete", "x", "m", "k"])
    last = [["let", "x", None], ["collect"], ["let", "k", None], ["collect"]]
    last += [["let", "p", None], ["let", "m", None], ["collect"]]
    return alone([["new", "p"], ["new", "k"], *made], asked, last)


def keys_of_one_map(count):
    """One WeakMap with as many entries, and one WeakSet with as many members, which go at once."""
    made = each(count, ["new", "k"], ["set", "p", "k#", "k"], ["wmset", "m", "k", "p"], ["wsadd", "s", "k"])
    last = [["let", "k", None], ["collect"], ["let", "p", None], ["collect"]]
    return alone([["new", "p"], ["weakmap", "m"], ["weakset", "s"], *made], last)


def entries_in_adverse_order(count):
    """A chain of entries, of which each stands before the entry that leads to its key."""
    made = each(count, ["new", "k"], ["wmset", "m", "k", "v"], ["copy", "v", "k"])
    return alone([["weakmap", "m"], ["new", "v"], *made], [["let", "v", None], ["collect"], ["let", "k", None], ["collect"]])


def cells_of_one_token(count):
    made = each(count, ["new", "x"], ["register", "r", "x", "h", "t"])
    last = [["let", "x", None], ["collect"], ["unregister", "b", "r", "t"], ["say", "b"], ["collect"]]
    return alone([["registry", "r", "cb"], ["new", "t"], ["let", "h", 1], *made], last, callbacks={"cb": []})


def tokens_of_many_registries(count):
    """As many cells under one token, in as many registries as each has cells, which are unregistered one by one."""
    side = int(count**0.5)
    made = each(side, ["registry", "r", "cb"], ["set", "p", "r#", "r"])
    made += [step for _ in range(side) for step in each(side, ["get", "r", "p", "r#"], ["register", "r", "p", "h", "t"])]
    taken = each(side, ["get", "r", "p", "r#"], ["unregister", "b", "r", "t"])
    return alone([["new", "p"], ["new", "t"], ["let", "h", 1], *made], taken, callbacks={"cb": []})


def cells_awaiting(count):
    """One registry takes as many cells in one cleanup job."""
    made = each(count, ["new", "x"], ["register", "r", "x", "h"])
    last = [["let", "x", None], ["collect"]]
    return alone([["registry", "r", "cb"], ["let", "h", 1], *made], last, callbacks={"cb": []})


def cells_refused(count):
    """1,000 registries are queued again and again, since each callback is refused: as many cells in all."""
    made = each(1000, ["registry", "r", "cb"], ["set", "p", "r#", "r"])
    for _ in range(count // 1000):
        made += each(1000, ["get", "r", "p", "r#"], ["new", "x"], ["register", "r", "x", "h"])
    last = [["let", "x", None], ["collect"]]
    return alone([["new", "p"], ["let", "h", 1], *made], last, callbacks={"cb": [["keys", "h"]]})


def registries_queued(count):
    """As many registries with a cell each are queued by one collection."""
    made = each(count, ["registry", "r", "cb"], ["new", "x"], ["register", "r", "x", "h"])
    last = [["let", "x", None], ["collect"]]
    return alone([["let", "h", 1], *made], last, callbacks={"cb": []})


def cells_registered_anew(count):
    """Each callback registers anew what it holds."""
    made = each(count, ["new", "x"], ["register", "r", "x", "h"])
    again = [["new", "y"], ["register", "r", "y", "held"], ["let", "y", None]]
    last = [["let", "x", None], ["collect"]]
    return alone([["registry", "r", "cb"], ["let", "h", 1], *made], last, [["collect"]], callbacks={"cb": again})


def kept(count):
    """Jobs that keep as many values alive in all, each again and again, and collect."""
    made = each(100, ["new", "o"], ["weakref", "w#", "o"])
    derefs = each(100, ["deref", "o", "w#"]) * 99
    return alone(made, *[[*derefs, ["collect"]]] * (count // len(derefs)))


def derefs_beside_later(count):
    """As many derefs while a later collection is open, of up to 9,000 WeakRefs in each."""
    number = min(count, 9000)
    made = each(number, ["new", "o"], ["weakref", "w#", "o"])
    derefs = [["collectlater"], *each(number, ["deref", "o", "w#"])]
    return alone(made, [["let", "o", None]], *[derefs] * (count // number), [["collect"]], version=2)


def variables(count):
    return alone(each(count, ["let", "v#", 1]), each(count, ["copy", "x", "v#"]), [["collect"]])


def collections(count):
    """As many collections of a small heap."""
    return alone([["new", "o"], ["new", "p"], ["set", "o", "p", "p"], ["weakref", "w", "p"]], [["collect"]] * count)


def small_heaps(count):
    """As many collections, each of one object."""
    return alone(each(count, ["new", "o"], ["let", "o", None], ["collect"]))


def chain(count):
    made = each(count, ["new", "n"], ["set", "n", "p", "o"], ["copy", "o", "n"])
    return alone(made, [["let", "n", None], ["collect"], ["let", "o", None], ["collect"]])


def caught_refusals(count):
    """As many commands, of which half are refused and caught."""
    return alone(each(count // 2, ["try", "e", "keys", "x"], ["copy", "y", "e"]), version=3)


def eight_agents(count):
    """As many commands in all, on one block."""
    run = each(count // 8 // 4, ["add", "x", "b", 0, 1], ["load", "x", "b", 1], ["store", "b", 2, 3], ["let", "x", 1])
    first, *others = NAMES
    made = [["buffer", "b", 3], *(["post", other, "b"] for other in others)]
    waits = {"on": [first, "b"], "run": []}
    return written([agent(first, [made, *split(run)]), *(agent(other, [waits, *split(run)]) for other in others)])


def ring(count):
    """A message goes round eight agents as often."""
    jobs = {name: [] for name in NAMES}
    jobs[NAMES[0]].append([["let", "m", 1], ["post", NAMES[1], "m"]])
    for number in range(1, count + 1):
        before, here, after = (NAMES[at % 8] for at in (number - 1, number, number + 1))
        jobs[here].append({"on": [before, "m"], "run": [["post", after, "m"]] if number < count else []})
    return written([agent(name, made) for name, made in jobs.items()])


def skips(count):
    """Eight agents that wait in vain, each in as many jobs."""
    return written(
        [agent(name, [{"on": [NAMES[number - 1], "m"], "run": []}] * (count // 8)) for number, name in enumerate(NAMES)]
    )


PLANS = {
    "commands": (commands, 400_000), "identities": (identities, 1_000_000), "blocks": (blocks, 256),
    "posts": (posts, 10_000), "posted blocks": (posted_blocks, 9_000), "keys": (many_keys, 100_000),
    "deletes from the last": (deletes_last, 100_000), "deletes from the first": (deletes_first, 100_000),
    "keys again": (keys_again_and_again, 2_000), "entries of one key": (entries_of_one_key, 100_000),
    "keys of one map": (keys_of_one_map, 100_000), "entries in adverse order": (entries_in_adverse_order, 200_000),
    "cells of one token": (cells_of_one_token, 100_000), "a token of many registries": (tokens_of_many_registries, 90_000),
    "cells that await": (cells_awaiting, 100_000), "cells that are refused": (cells_refused, 100_000),
    "registries": (registries_queued, 100_000), "cells registered anew": (cells_registered_anew, 100_000),
    "kept": (kept, 1_000_000), "derefs beside a later collection": (derefs_beside_later, 72_000),
    "variables": (variables, 200_000), "collections": (collections, 1_000_000), "small heaps": (small_heaps, 10_000),
    "chain": (chain, 300_000), "caught refusals": (caught_refusals, 400_000), "eight agents": (eight_agents, 400_000),
    "ring": (ring, 7_992), "skips": (skips, 8_000),
}  # fmt: skip
