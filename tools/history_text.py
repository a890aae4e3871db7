"""Histories as text, which `scatter linear` reads: read, and written with names that the text can have.

docs/HISTORIES.md has the format. What is read here was accepted by the program before.
"""

import contextlib
import json
import os
import tempfile

HEADER = "scatter history 1"
NEVER = float("inf")
ASKS = ("get", "put", "del", "add", "cas")
KEY, VALUE = 64, 256  # the most bytes of a name


class BadHistory(Exception):
    """A file that cannot be taken as a history: the line, from 1, or None, and why."""

    def __init__(self, line, why):
        super().__init__(f"line {line}: {why}" if line else why)


# ---- reading


def is_history(data):
    """Whether a file is a history, by its first line."""
    return data.split(b"\n", 1)[0].decode("latin-1").split() == HEADER.split()


@contextlib.contextmanager
def temporary(data):
    """A file with these bytes for as long as it is needed."""
    with tempfile.TemporaryDirectory() as folder:
        name = os.path.join(folder, "given.history")
        with open(name, "wb") as file:
            file.write(data)
        yield name


class Request:
    """One request: its process and words, the lines of its beginning and end, and the end's words."""

    def __init__(self, begun, process, words):
        self.begun, self.process, self.words = begun, process, words
        self.ended, self.end = NEVER, None
        self.kind, self.key, self.values = words[0], words[1], words[2:]

    def writes(self, old):
        """Whether it writes its last value, where this was the value of the key."""
        if self.kind == "cas":
            return old is not None and old == self.values[0]
        return self.kind == "put" or (self.kind == "add" and old is None)

    def after(self, old):
        """The value of the key afterwards."""
        if self.writes(old):
            return self.values[-1]
        return None if self.kind == "del" else old

    def fits(self, old):
        """Whether it may have met this value, by what it was told in the end."""
        said = self.end or ["lost"]
        if said[0] in ("none", "value"):
            return old == (said[1] if said[0] == "value" else None)
        if said[0] == "no":
            return self.kind in ("add", "cas") and not self.writes(old)
        return said[0] != "fail"


def requests(text):
    """All requests of a history, in the order in which they began."""
    under_way, found = {}, []
    for number, line in enumerate(text.split("\n"), 1):
        process, *words = line.split() or [""]
        if number == 1 or not words or line.startswith("#"):
            continue
        if words[0] in ASKS and len(words) > 1:
            under_way[process] = Request(number, process, words)
            found.append(under_way[process])
        elif process in under_way:
            one = under_way.pop(process)
            one.end = words
            one.ended = NEVER if words == ["lost"] else number
        else:
            raise BadHistory(number, "no line of a history")
    return found


# ---- writing


class Event:
    """What a process did: it asked (`key` and values), or its request ended (values alone).

    `line` is where the source says so. Keys and values are texts of EDN, so that the number 5 and
    the string "5" are two.
    """

    def __init__(self, line, process, word, key=None, values=()):
        self.line, self.process, self.word, self.key, self.values = line, process, word, key, values


class Names:
    """Gives each text a name that a history can have, its own where that can be."""

    def __init__(self, what, most):
        self.what, self.most = what, most
        self.names, self.taken, self.renamed = {}, set(), []

    def can_be(self, name):
        fits = 1 <= len(name) <= self.most and all(33 <= ord(letter) <= 126 for letter in name)
        return fits and name not in self.taken

    def name(self, text):
        if text not in self.names:
            wanted = json.loads(text) if text.startswith('"') else text
            if not self.can_be(wanted):
                number = len(self.renamed) + 1
                while not self.can_be(f"{self.what}-{number}"):
                    number += 1
                wanted = f"{self.what}-{number}"
                self.renamed.append(f"# {self.what} {wanted} is {text}")
            self.names[text] = wanted
            self.taken.add(wanted)
        return self.names[text]


class Processes:
    """Gives each process its number, and another one where it asks on behind a lost request."""

    def __init__(self, first):
        self.first, self.numbers, self.lost, self.renamed = first, {}, set(), []
        self.last = 0

    def see(self, process):
        self.last = max(self.last, process + self.first)

    def number(self, process, asks):
        if asks and process in self.lost:
            self.last += 1
            self.lost.discard(process)
            self.numbers[process] = self.last
            self.renamed.append(f"# process {process} asks on as {self.last}")
        return self.numbers.get(process, process + self.first)


def written(events, first=0, source="line"):
    """The lines of a history of these events, in their order. Process 0 is written as `first`.

    Where each event has a line of its own, the one of line N stands on line N + 1 here, and nothing
    else stands between. Otherwise a comment says from which line of the source the next one is.
    """
    keys, values, processes = Names("key", KEY), Names("value", VALUE), Processes(first)
    for event in events:
        processes.see(event.process)
    places = [event.line for event in events]
    is_aligned = source == "line" and all(one < other for one, other in zip(places, places[1:]))
    lines, last = [HEADER], None
    for event in events:
        if is_aligned:
            lines += [""] * (event.line - len(lines))
        elif event.line != last:
            lines.append(f"# {source} {event.line}")
            last = event.line
        number = processes.number(event.process, event.key is not None)
        names = [] if event.key is None else [keys.name(event.key)]
        names += map(values.name, event.values)
        lines.append(" ".join([str(number), event.word, *names]))
        if event.word == "lost":
            processes.lost.add(event.process)
    return [*lines, *keys.renamed, *values.renamed, *processes.renamed]
