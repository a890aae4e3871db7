"""The clients' history of a journal as Jepsen's checkers read it, for `export --jepsen`.

A history is a sequence of EDN maps, a line each: an `:invoke` in the row that issued a request, an
`:ok` or `:fail` in the row that took the answer, an `:info` at the end for each that has none. The
process is the client, and the time is the row.

Elle takes transactions over all keys. A request reads its key, since each reply has the value that
was there before, and then writes it where it does. Knossos takes the operations of one register,
which is one key here. It takes a read of nil for a read of anything, so no value is `:none` there,
and a write of it by process 0 stands before all others.
"""

import journals
from client_history import NEVER, requests


def text(said):
    """A string of a key or a value, or nil."""
    if said is None:
        return "nil"
    return '"' + said.replace("\\", "\\\\").replace('"', '\\"') + '"'


def shown(fields):
    """A map with keywords for its names."""
    return "{" + ", ".join(f":{name} {value}" for name, value in fields.items()) + "}"


# ---- Elle


def transaction(asked, old, writes):
    """A request as a transaction of reads and writes."""
    key = text(asked.key)
    steps = [f"[:r {key} {text(old)}]"]
    if writes:
        steps.append(f"[:w {key} {text(asked.value)}]")
    return ":txn", "[" + " ".join(steps) + "]"


def elle(asked):
    """A request as it was asked, and as it was answered: type, function and value."""
    wants_write = asked.kind != "Get"
    begun = ("invoke", *transaction(asked, None, wants_write))
    if asked.answered == NEVER:
        return begun, ("info", *begun[1:])
    writes = asked.kind == "Del" or asked.writes(asked.reply)
    return begun, ("ok", *transaction(asked, asked.reply, writes))


# ---- Knossos

NONE = ":none"


def register(said):
    return NONE if said is None else text(said)


def knossos(asked):
    """A request of one key as it was asked, and as it was answered: type, function and value."""
    if asked.kind in ("Cas", "Add"):
        function = ":cas"
        value = f"[{register(asked.expect)} {text(asked.value)}]"
    else:
        function = ":read" if asked.kind == "Get" else ":write"
        value = "nil" if asked.kind == "Get" else register(asked.value)
    begun = ("invoke", function, value)
    if asked.answered == NEVER:
        return begun, ("info", function, value)
    if asked.kind == "Get":
        return begun, ("ok", function, register(asked.reply))
    is_taken = function == ":write" or asked.writes(asked.reply)
    return begun, ("ok" if is_taken else "fail", function, value)


# ---- the history


def steps(journal, key):
    """The steps of the history in their order: time, process, key; type, function and value."""
    found, last = [], len(journal.rows) + 1
    for place, asked in enumerate(requests(journal)):
        if key not in (None, asked.key):
            continue
        begun, ended = elle(asked) if key is None else knossos(asked)
        end = last if asked.answered == NEVER else asked.answered
        # (a client takes an answer before it asks again in the same row)
        process = asked.client - journals.NODES
        found.append((asked.issued, 1, place, process, asked.key, begun))
        found.append((end, 0, place, process, asked.key, ended))
    return [(row, *rest) for row, _, _, *rest in sorted(found)]


def lines(journal, key=None):
    """The lines of the history of all keys for Elle, or of one key for Knossos."""
    first = []
    if key is not None:
        first = [(0, 0, key, (word, ":write", NONE)) for word in ("invoke", "ok")]
    for index, (row, process, name, said) in enumerate([*first, *steps(journal, key)]):
        kind, function, value = said
        yield shown(
            {
                "index": index,
                "type": f":{kind}",
                "process": process,
                "time": row,
                "f": function,
                "key": text(name),
                "value": value,
            }
        )


def notes(journal, key=None):
    """What Elle cannot make use of: it distinguishes versions of a key by their values."""
    if key is not None:
        return []
    written, again, gone = {}, set(), set()
    for asked in requests(journal):
        if asked.kind == "Del":
            gone.add(asked.key)
        elif asked.kind != "Get":
            values = written.setdefault(asked.key, set())
            if asked.value in values:
                again.add(asked.key)
            values.add(asked.value)
    found = []
    if again:
        keys = " ".join(sorted(again))
        found.append(f"a value is written twice, so Elle may refuse: keys {keys}")
    if gone:
        found.append(
            "a delete is a write of nil, which Elle takes for the first value, so it may find"
            f" cycles: keys {' '.join(sorted(gone))}"
        )
    return found
