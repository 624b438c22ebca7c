"""Makes a text that shows something smaller, as long as it still shows it."""

import json
import time

MOST = 60  # after so many seconds it is small enough
LONG = 4000  # of a text with more bytes than this no single bytes are taken out


class Done(Exception):
    """It took as long as it may."""


class Shrinking:
    """The smallest text so far that shows it, and until when smaller ones are tried."""

    def __init__(self, data, shows):
        self.data, self.shows, self.until = data, shows, time.monotonic() + MOST

    def tries(self, data):
        """Whether a text shows it too, which then is the smallest."""
        if time.monotonic() > self.until:
            raise Done
        if not self.shows(data):
            return False
        self.data = data
        return True

    def without(self, items, made_of):
        """Takes as many items out as it can, first many at once and then single ones."""
        size = len(items)
        while size > 0:
            at = 0
            while at < len(items):
                rest = items[:at] + items[at + size :]
                if self.tries(made_of(rest)):
                    items = rest
                else:
                    at += size
            size //= 2
        return items


def written(value):
    return json.dumps(value, separators=(",", ":")).encode()


def holders(value):
    """The arrays and objects in a value, the outer ones first."""
    level = [value]
    while level:
        level = [part for part in level if isinstance(part, (list, dict))]
        yield from level
        level = [part for holder in level for part in (holder.values() if isinstance(holder, dict) else holder)]


def shrink_value(shrinking):
    """Takes parts out of arrays and objects, if the text is JSON."""
    try:
        value = json.loads(shrinking.data)
    except (ValueError, RecursionError):
        return
    if not shrinking.tries(written(value)):
        return
    for holder in holders(value):
        items = list(holder.items()) if isinstance(holder, dict) else list(holder)

        def put(some, holder=holder):
            holder.clear()
            if isinstance(holder, dict):
                holder.update(some)
            else:
                holder.extend(some)

        def made_of(some, put=put):
            put(some)
            return written(value)

        put(shrinking.without(items, made_of))


def shrunk(data, shows):
    """The smallest text that was found to show it, of one that does."""
    shrinking = Shrinking(data, shows)
    try:
        before = None
        while before != shrinking.data:
            before = shrinking.data
            shrink_value(shrinking)
            if len(shrinking.data) <= LONG:
                singles = [bytes([byte]) for byte in shrinking.data]
                shrinking.without(singles, b"".join)
    except Done:
        pass
    return shrinking.data
