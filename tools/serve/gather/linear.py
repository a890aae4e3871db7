"""Whether a history is linearizable, where the program has no such subcommand: key by key, just in time.

A place is the value of the key with the requests that stand in the order and have not ended (Wing
and Gong, 1993; Lowe, 2017). At an end each place goes on until that request stands in the order.
"""

MOST = 200_000  # places at one end, beyond which nothing is said
UNKNOWN = object()


class Undecided(Exception):
    """There are too many places, at the key that is named."""


class Request:
    """One request of a key: what it is, and the value before that it is told, if any."""

    def __init__(self, words):
        self.kind, self.values, self.old = words[0], words[2:], UNKNOWN

    def fits(self, value):
        return self.old is UNKNOWN or self.old == value

    def after(self, value):
        if self.kind == "put" or (self.kind == "add" and value is None):
            return self.values[0]
        if self.kind == "cas" and value == self.values[0]:
            return self.values[1]
        return None if self.kind == "del" else value


def read(lines):
    """By key, its events in their order: (request, whether it begins)."""
    keys, open_now = {}, {}
    for line in lines:
        process, *words = line.split()
        if words[0] in ("get", "put", "del", "add", "cas"):
            one = Request(words)
            open_now[process] = (words[1], one)
            keys.setdefault(words[1], []).append((one, True))
        else:
            key, one = open_now.pop(process)
            if words[0] != "lost":
                one.old = words[1] if words[0] == "value" else None
                keys[key].append((one, False))
    return keys


def advance(places, one, under_way, key):
    """The places in which a request stands, without it, that lead on from some places."""
    found, left, seen = set(), list(places), set(places)
    while left:
        value, stand = left.pop()
        if one in stand:
            found.add((value, stand - {one}))
            continue
        for other in under_way - stand:
            if other.fits(value):
                place = (other.after(value), stand | {other})
                if place not in seen:
                    seen.add(place)
                    left.append(place)
        if len(seen) > MOST:
            raise Undecided(key)
    return found


def is_linearizable(key, events):
    places, under_way = {(None, frozenset())}, set()
    for one, begins in events:
        if begins:
            under_way.add(one)
            continue
        places = advance(places, one, under_way, key)
        if not places:
            return False
        under_way.discard(one)
    return True


def first_bad_key(lines):
    """The first key whose requests no order fits, or nothing."""
    for key, events in sorted(read(lines).items()):
        if not is_linearizable(key, events):
            return key
    return None
