"""The forms of a scenario's lines, as docs/SCENARIOS.md has them, for `refusal` beside this file.

It serves only to explain a text that the program has refused: which word of the line is meant, and
what should stand there. Nothing is accepted or refused by it.
"""

import re

NUMBER = re.compile(r"(0|[1-9][0-9]*)\Z")
MOST_NODES, MOST_CLIENTS = 32, 64
LAST_POSITION = 4294967295


class Kind:
    """What a word of a form stands for, and which words do."""

    def __init__(self, means, is_good):
        self.means, self.is_good = means, is_good


def is_within(word, low, high):
    """Whether a word spells a number of a range."""
    return bool(NUMBER.match(word)) and low <= int(word) <= high


def number(means, low, high):
    """A number of a range."""
    return Kind(f"{means}, {low} to {high}", lambda word: is_within(word, low, high))


def is_actor(word):
    """Whether a word spells an actor, as n2 or c1."""
    most = {"n": MOST_NODES, "c": MOST_CLIENTS}.get(word[:1], 0)
    return is_within(word[1:], 1, most)


def is_group(word):
    """Whether a word spells a group's name, as 0.1."""
    parts = word.split(".")
    is_pair = len(parts) == 2
    return is_pair and is_within(parts[0], 0, MOST_NODES) and is_within(parts[1], 1, LAST_POSITION)


def text(means, most):
    """A key or a value."""
    said = f"{means} of 1 to {most} bytes, each from 33 to 126"
    return Kind(said, lambda word: 1 <= len(word) <= most)


KINDS = {
    "N": number("a node", 1, MOST_NODES),
    "M": number("a node", 1, MOST_NODES),
    "C": number("a client", 1, MOST_CLIENTS),
    "A": Kind("an actor: nN is node N, 1 to 32, and cC is client C, 1 to 64", is_actor),
    "G": Kind("a group's name X.Y: X is 0 to 32, Y 1 to 4294967295", is_group),
    "LO": number("a position on the ring", 0, LAST_POSITION),
    "P": number("a position on the ring", 0, LAST_POSITION),
    "K": text("a key", 64),
    "PLACE": number("a place among the pending mail of A", 1, LAST_POSITION),
    "MAIL": number("a mail's number", 1, LAST_POSITION),
    "V": text("a value", 256),
    "E": text("a value", 256),
    "L": number("a number of deliveries or steps", 1, 1000000),
    "W": number("a number of workers", 1, 16),
    "S": number("a storm's number", 0, 18446744073709551615),
}

# By the first word, and of an order also its third: the words of the form. A word of the form in
# brackets may come again.
FORMS = {
    "scatter": "scatter 1 | scatter 2",
    "nodes": "nodes N",
    "group": "group LO N [N]",
    "policy": "policy",
    "client": "client C",
    "get": "get K",
    "put": "put K V",
    "del": "del K",
    "add": "add K V",
    "cas": "cas K E V",
    "end": "end",
    "go": "go C",
    "deliver": "deliver A PLACE",
    "drop": "drop A PLACE",
    "again": "again MAIL",
    "tick": "tick A",
    "crash": "crash N",
    "settle": "settle L",
    "free": "free L W",
    "storm": "storm S L",
    "order join": "order N join M G",
    "order leave": "order N leave M G",
    "order split": "order N split G P",
    "order merge": "order N merge G",
    "order repart": "order N repart G P",
    "order migrate": "order N migrate G M",
}

SHOWN = {"PLACE": "K", "MAIL": "M", "[N]": ".. Nk"}
REQUESTS = ("get", "put", "del", "add", "cas")
PHASES = {"scatter": 0, "nodes": 1, "group": 2, "policy": 3, "client": 4}
ORDERS = [name.split(" ")[1] for name in FORMS if name.startswith("order ")]


def form_of(words):
    """The form of a line by its words; nothing where no line begins so."""
    if words[:1] == ["order"]:
        return FORMS.get(f"order {words[2]}") if len(words) > 2 else "order N .."
    return FORMS.get(words[0]) if words else None


def shown(form):
    """A form as the manual spells it."""
    return " ".join(SHOWN.get(word, word) for word in form.split(" "))


def kinds_of(form, count):
    """Name and kind of each word of a line of COUNT words; no kind where a word stands for itself."""
    names = form.split(" ")
    while names and names[-1] == "[N]" and len(names) < count:
        names.append("[N]")
    return [(name.strip("[]"), KINDS.get(name.strip("[]"))) for name in names[:count]]


def phase(word):
    """The phase of a line, by its first word."""
    if word in REQUESTS or word == "end":
        return 4
    return PHASES.get(word, 5)
