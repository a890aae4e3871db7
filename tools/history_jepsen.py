"""Histories of Jepsen and of the tools that read its forms, as events of a history, for `history`.

A line says of a process that it invokes a function, or how that ended: `:ok`, `:fail` where it
certainly has no effect, `:info` where nobody knows. Read here are registers (`:read`, `:write`,
`:cas`), one or with independent keys; transactions over one key, as `tools/export` writes them; and
`:get` and `:put` of Porcupine's key-value logs. What the format cannot say is refused by its line.
"""

import json
import re

import edn
from history_text import BadHistory, Event

TYPES = ("invoke", "ok", "fail", "info")
ONE_KEY = '"register"'
COLUMNS = re.compile(r"(\S+)\s+:(invoke|ok|fail|info)\s+:(\S+)(?:\s+(.*))?$")
LOGGED = re.compile(r"INFO\s+jepsen\.util\s+-\s+(.*)$")
NOTHING = object()


class Said:
    """One line: where it stands, of which process, its type, function, value, key and error."""

    place = 0  # which one it is of all

    def __init__(self, line, fields):
        self.line, self.process = line, fields.get("process")
        self.type, self.function = str(fields.get("type")), str(fields.get("f"))
        self.value, self.key = fields.get("value"), fields.get("key", NOTHING)
        self.error = fields.get("error")

    def bad(self, why):
        return BadHistory(self.line, why)

    def is_client(self):
        return isinstance(self.process, int) and not isinstance(self.process, bool)


# ---- the forms


def of_edn(text):
    """The lines of a text of maps, or of one vector or list of them."""
    try:
        for value in edn.values(text):
            for one in value if isinstance(value, list) else [value]:
                if isinstance(one, edn.Tagged):
                    one = one.value  # a record
                if not isinstance(one, edn.Map):
                    raise BadHistory(None, f"no map: {str(one)[:60]}")
                yield Said(one.line, one)
    except edn.BadEdn as fault:
        raise BadHistory(fault.line, fault.why) from None
    except RecursionError:
        raise BadHistory(None, "values in values, too deep") from None


def of_json(text):
    """The lines of a text of objects, or of one array of them."""
    reader, at, line, end = json.JSONDecoder(), 0, 1, len(text)
    while True:
        blank = re.compile(r"[\s,\[\]]*").match(text, at)
        line, at = line + text.count("\n", at, blank.end()), blank.end()
        if at == end:
            return
        try:
            value, then = reader.raw_decode(text, at)
        except (ValueError, RecursionError):
            raise BadHistory(line, "no JSON") from None
        if not isinstance(value, dict):
            raise BadHistory(line, "no object")
        yield Said(line, value)
        line, at = line + text.count("\n", at, then), then


def of_columns(text, is_log=False):
    """The lines of a text of columns: process, type, function, value, error; in a log behind `INFO jepsen.util -`."""
    for number, line in enumerate(text.split("\n"), 1):
        if not line.strip():
            continue
        logged = LOGGED.match(line) if is_log else None
        if is_log and not logged:
            raise BadHistory(number, "no line of jepsen.util")
        found = COLUMNS.match((logged[1] if is_log else line).strip())
        if not found:
            raise BadHistory(number, "not process, type, function and value")
        try:
            process, *more = edn.read(f"{found[1]} {found[4] or ''}")
        except edn.BadEdn as fault:
            raise BadHistory(number, fault.why) from None
        fields = {"process": process, "type": found[2], "f": found[3]}
        fields.update(zip(("value", "error"), more))
        yield Said(number, fields)


# ---- one process at a time


def text_of(value):
    """A value as EDN, by which it is known."""
    if isinstance(value, (edn.Keyword, edn.Symbol)):
        return repr(value)
    if isinstance(value, str):
        return json.dumps(value)
    if isinstance(value, (list, tuple)):
        return "[" + " ".join(map(text_of, value)) + "]"
    if isinstance(value, dict):
        return "{" + " ".join(f"{text_of(name)} {text_of(of)}" for name, of in value.items()) + "}"
    if isinstance(value, edn.Tagged):
        return f"#{value.tag} {text_of(value.value)}"
    if value is None or isinstance(value, bool):
        return {None: "nil", True: "true", False: "false"}[value]
    return repr(value)


class Pair:
    """A request: the line that invoked it, and the one that says how it ended, or None."""

    def __init__(self, begun):
        self.begun, self.ended = begun, None

    def type(self):
        return self.ended.type if self.ended else "info"


def pairs(said):
    """The requests of all processes, in the order of their beginnings; and how many lines were of no process."""
    under_way, found, others = {}, [], 0
    for place, one in enumerate(said):
        one.place = place
        if not one.is_client():
            if one.type not in TYPES or not isinstance(one.process, str):
                raise one.bad("no process, or no type")
            others += 1
            continue
        if one.process < 0 or one.type not in TYPES:
            raise one.bad(f"no process: {one.process}" if one.process < 0 else f"no type: {one.type}")
        if one.type == "invoke":
            if one.process in under_way:
                raise one.bad(f"process {one.process} has a request")
            under_way[one.process] = Pair(one)
            found.append(under_way[one.process])
            continue
        if one.process not in under_way:
            raise one.bad(f"process {one.process} has no request")
        pair = under_way.pop(one.process)
        if one.function != pair.begun.function:
            raise one.bad(f":{one.function} ends :{pair.begun.function}")
        pair.ended = one
    return found, others


def is_two(value):
    return isinstance(value, (list, tuple)) and len(value) == 2


def untagged(value):
    """A pair of a key and a value without the tag that some versions print before it."""
    if isinstance(value, edn.Tagged) and value.tag.endswith(("Tuple", "MapEntry")):
        return value.value
    return value


def has_keys(found):
    """Whether the values of registers are pairs of a key and a value: then each one is."""
    asked = [pair.begun for pair in found if pair.begun.function in ("read", "write", "cas")]
    if not asked or any(one.key is not NOTHING for one in asked):
        return False

    def is_keyed(one):
        value = untagged(one.value)
        return is_two(value) and (one.function != "cas" or is_two(value[1]))

    keyed = [is_keyed(one) for one in asked]
    if any(keyed) and not all(keyed):
        raise asked[keyed.index(not keyed[0])].bad("some values have a key, and some have none")
    return keyed[0]


class Reader:
    """Makes events of requests: `nil_any` takes a read of nil for one of anything, `refused` a `:cas` that failed
    without an error for one that met another value."""

    def __init__(self, found, nil_any=False, refused=False):
        self.found, self.nil_any, self.refused = found, nil_any, refused
        self.keyed = has_keys(found)

    def events(self):
        """All events, in the order in which they stand."""
        made = {}
        for pair in self.found:
            asked, end = self.request(pair)
            for one, said in ((pair.begun, asked), (pair.ended, end)):
                if one:
                    made[one.place] = Event(one.line, one.process, *said)
        return [made[place] for place in sorted(made)]

    def key_and_value(self, said):
        if said.key is not NOTHING:
            return text_of(said.key), said.value
        value = untagged(said.value)
        return (text_of(value[0]), value[1]) if self.keyed else (ONE_KEY, value)

    def request(self, pair):
        """The word, key and values of a request, and the word of its end with its value."""
        of = {
            "read": self.read,
            "write": self.write,
            "cas": self.cas,
            "txn": self.txn,
            "get": self.read,
            "put": self.write,
        }
        function = pair.begun.function
        if function not in of:
            raise pair.begun.bad(f"no function that a history has: :{function}")
        return of[function](pair)

    def end(self, pair, ok):
        return {"ok": ok, "fail": ("fail",), "info": ("lost",)}[pair.type()]

    def met(self, value):
        if value is None:
            return ("ok",) if self.nil_any else ("none",)
        return "value", None, (text_of(value),)

    def same_key(self, pair, key):
        """The value that an `:ok` has, which is of the same key."""
        if self.keyed and not is_two(untagged(pair.ended.value)):
            raise pair.ended.bad("its value has no key")
        other, value = self.key_and_value(pair.ended)
        if other != key:
            raise pair.ended.bad(f"its key is {other}, and was {key}")
        return value

    def empty_is_nil(self, pair, value):
        """Porcupine's key-value logs have an empty text where there is no value."""
        return None if pair.begun.function in ("get", "put") and value == "" else value

    def read(self, pair):
        key, _ = self.key_and_value(pair.begun)
        ok = None
        if pair.type() == "ok":
            ok = self.met(self.empty_is_nil(pair, self.same_key(pair, key)))
        return ("get", key, ()), self.end(pair, ok)

    def write(self, pair):
        key, value = self.key_and_value(pair.begun)
        value = self.empty_is_nil(pair, value)
        if pair.type() == "ok" and self.empty_is_nil(pair, self.same_key(pair, key)) != value:
            raise pair.ended.bad("it wrote another value than it was asked to")
        asked = ("del", key, ()) if value is None else ("put", key, (text_of(value),))
        return asked, self.end(pair, ("ok",))

    def cas(self, pair):
        key, value = self.key_and_value(pair.begun)
        if not is_two(value):
            raise pair.begun.bad("a :cas has two values")
        old, new = value
        if new is None:
            raise pair.begun.bad("a :cas to nil, which a history cannot say")
        if pair.type() == "ok" and list(self.same_key(pair, key) or ()) != list(value):
            raise pair.ended.bad("it has other values than it was asked with")
        if old is None:
            asked, ok = ("add", key, (text_of(new),)), ("none",)
        else:
            asked, ok = ("cas", key, (text_of(old), text_of(new))), ("value", None, (text_of(old),))
        if pair.type() == "fail" and self.refused and self.is_plain(pair):
            return asked, ("no",)
        return asked, self.end(pair, ok)

    def is_plain(self, pair):
        """Whether a line that says `:fail` has no error, in its place or in that of the value."""
        return pair.ended.error is None and not isinstance(pair.ended.value, str)

    # ---- transactions

    def steps(self, said):
        """The key, the read and the write of a transaction over one key; each is a value in a list, or None."""
        steps = said.value
        if not isinstance(steps, (list, tuple)) or not steps:
            raise said.bad("no transaction")
        if not all(isinstance(one, (list, tuple)) and len(one) == 3 for one in steps):
            raise said.bad("a step of a transaction has a function, a key and a value")
        if [str(one[0]) for one in steps] not in (["r"], ["w"], ["r", "w"]):
            raise said.bad("a transaction that is not a read, a write, or a read and a write")
        keys = {text_of(one[1]) for one in steps}
        if len(keys) > 1:
            raise said.bad("a transaction over two keys")
        of = {str(one[0]): [one[2]] for one in steps}
        return keys.pop(), of.get("r"), of.get("w")

    def txn(self, pair):
        key, read, write = self.steps(pair.begun)
        end = self.end(pair, ("ok",))
        if pair.type() == "ok":
            other, met, wrote = self.steps(pair.ended)
            if other != key or (read is None) != (met is None):
                raise pair.ended.bad("it has other steps than it was asked with")
            if wrote is not None and wrote != write:
                raise pair.ended.bad("it wrote another value than it was asked to")
            if wrote is None and read is None:
                raise pair.ended.bad("it wrote nothing")
            write = wrote  # what was not written was not met: it has read alone
            end = self.met(met[0]) if met else end
        if write is None:
            return ("get", key, ()), end
        if write[0] is None:
            return ("del", key, ()), end
        return ("put", key, (text_of(write[0]),)), end
