"""Reads EDN, the text of Clojure's values, as github.com/edn-format/edn has it.

    nil true false      None, True, False
    12 12N              int
    1.5 1e3, 1.5M       float, and Decimal
    ##Inf ##-Inf ##NaN  float
    "a\\n", \\a           str, and Character, a str
    :a/b, a             Keyword and Symbol, each a str
    [..], (..)          list, and List, a list
    {..}, #{..}         Map, a dict with the line on which it begins, and Set, a list
    #tag value          Tagged

A list, a map or a set that is a name in a map is frozen to a tuple. It knows nothing of who writes the text, and no package of
Debian's reads EDN in Python.
"""

import bisect
import decimal
import re

SKIPPED = re.compile(r"(?:[\s,]+|;[^\n]*)+")
TOKEN = re.compile(
    r'(?P<text>"(?:[^"\\]|\\.)*")|(?P<open>#\{|[{\[(])|(?P<close>[}\])])|(?P<discard>\#_)'
    r"|(?P<special>\#\#-?\w+)|(?P<char>\\(?:u[0-9a-fA-F]{4}|[a-z]+|.))"
    r'|(?P<tag>\#[A-Za-z][^\s,;{}\[\]()"]*)|(?P<atom>[^\s,;{}\[\]()"]+)',
    re.DOTALL,
)
ESCAPE = re.compile(r"\\(u[0-9a-fA-F]{4}|.)", re.DOTALL)
ESCAPED = {"n": "\n", "t": "\t", "r": "\r", "b": "\b", "f": "\f", '"': '"', "\\": "\\"}
NAMED = {"newline": "\n", "return": "\r", "space": " ", "tab": "\t", "formfeed": "\f", "backspace": "\b"}
SPECIAL = {"##Inf": float("inf"), "##-Inf": float("-inf"), "##NaN": float("nan")}
WORDS = {"nil": None, "true": True, "false": False}
WHOLE = re.compile(r"([-+]?(?:0|[1-9]\d*))N?")
REAL = re.compile(r"([-+]?(?:0|[1-9]\d*)(?:\.\d*)?(?:[eE][-+]?\d+)?)(M?)")
NAME = re.compile(r"[A-Za-z.*+!?$%&=<>_|'#:/-][\w.*+!?$%&=<>|'#:/-]*")
CLOSES = {"{": "}", "[": "]", "(": ")", "#{": "}"}


class BadEdn(Exception):
    """A text that is no EDN: the line, from 1, and why."""

    def __init__(self, line, why):
        super().__init__(f"line {line}: {why}")
        self.line, self.why = line, why


class Keyword(str):
    """A keyword, without its colon."""

    def __repr__(self):
        return f":{self}"


class Symbol(str):
    """A symbol."""

    def __repr__(self):
        return str(self)


class Character(str):
    """One character."""


class List(list):
    """A list in round brackets."""


class Set(list):
    """The members of a set, in the order in which they stand."""


class Map(dict):
    """A map, and the line on which it begins."""

    line = 0


class Tagged:
    """A value behind a tag."""

    def __init__(self, tag, value):
        self.tag, self.value = tag, value

    def __eq__(self, other):
        return isinstance(other, Tagged) and (self.tag, self.value) == (other.tag, other.value)

    def __hash__(self):
        return hash((self.tag, frozen(self.value)))

    def __repr__(self):
        return f"#{self.tag} {self.value!r}"


def frozen(value):
    """The value where it may be a name in a map, or else a tuple of what it has."""
    if isinstance(value, list):
        return tuple(map(frozen, value))
    if isinstance(value, dict):
        return tuple((name, frozen(of)) for name, of in value.items())
    return value


class Reader:
    """Reads the values of a text one after another."""

    def __init__(self, text):
        self.text, self.at = text, 0
        self.ends = [found.start() for found in re.finditer("\n", text)]

    def line(self, at):
        return bisect.bisect_left(self.ends, at) + 1

    def bad(self, at, why):
        return BadEdn(self.line(at), why)

    def token(self):
        """The next token, its kind, and where it stands; nothing at the end of the text."""
        skipped = SKIPPED.match(self.text, self.at)
        if skipped:
            self.at = skipped.end()
        if self.at == len(self.text):
            return None
        found = TOKEN.match(self.text, self.at)
        if not found:
            raise self.bad(self.at, f"no value: {self.text[self.at : self.at + 20]}")
        self.at = found.end()
        return found.lastgroup, found.group(), found.start()

    def values(self):
        """All values of the text."""
        while True:
            token = self.token()
            if token is None:
                return
            value = self.value(token)
            if value is not DISCARDED:
                yield value

    def value(self, token):
        """The value that begins with a token."""
        kind, word, at = token
        if kind == "open":
            return self.collection(word, at)
        if kind == "text":
            return self.string(word, at)
        if kind == "tag":
            return Tagged(word[1:], self.one(at, f"{word} has no value"))
        if kind == "discard":
            self.one(at, "#_ has no value")
            return DISCARDED
        if kind == "atom":
            return self.atom(word, at)
        if kind == "special" and word in SPECIAL:
            return SPECIAL[word]
        if kind == "char":
            return self.character(word, at)
        raise self.bad(at, f"no value: {word}")

    def one(self, at, why):
        """The next value that is not discarded."""
        while True:
            token = self.token()
            if token is None or token[0] == "close":
                raise self.bad(at, why)
            value = self.value(token)
            if value is not DISCARDED:
                return value

    def collection(self, word, at):
        parts, closes = [], CLOSES[word]
        while True:
            token = self.token()
            if token is None:
                raise self.bad(at, f"{word} is not closed")
            if token[0] == "close":
                if token[1] != closes:
                    raise self.bad(token[2], f"{token[1]} where {closes} closes {word}")
                break
            value = self.value(token)
            if value is not DISCARDED:
                parts.append(value)
        if word == "{":
            return self.map(parts, at)
        return {"[": list, "(": List, "#{": Set}[word](parts)

    def map(self, parts, at):
        if len(parts) % 2:
            raise self.bad(at, "a map has a name without a value")
        made = Map(zip(map(frozen, parts[::2]), parts[1::2]))
        if 2 * len(made) != len(parts):
            raise self.bad(at, "a map has a name twice")
        made.line = self.line(at)
        return made

    def string(self, word, at):
        def escaped(found):
            said = found[1]
            if len(said) == 5:
                return chr(int(said[1:], 16))
            if said not in ESCAPED:
                raise self.bad(at, f"no escape: \\{said}")
            return ESCAPED[said]

        return ESCAPE.sub(escaped, word[1:-1]) if "\\" in word else word[1:-1]

    def character(self, word, at):
        said = word[1:]
        if len(said) == 1:
            return Character(said)
        if len(said) == 5 and said[0] == "u":
            return Character(chr(int(said[1:], 16)))
        if said not in NAMED:
            raise self.bad(at, f"no character: {word}")
        return Character(NAMED[said])

    def atom(self, word, at):
        if word in WORDS:
            return WORDS[word]
        whole = WHOLE.fullmatch(word)
        if whole:
            return int(whole[1])
        real = REAL.fullmatch(word)
        if real:
            return decimal.Decimal(real[1]) if real[2] else float(real[1])
        if word[0] == ":" and word.strip(":"):
            return Keyword(word[1:])
        if word[0] not in ":#" and NAME.fullmatch(word) and not re.match(r"[-+.]\d", word):
            return Symbol(word)
        raise self.bad(at, f"no value: {word}")


DISCARDED = object()  # what `#_` leaves of a value


def values(text):
    """All values of a text, one after another."""
    return Reader(text).values()


def read(text):
    """All values of a text."""
    return list(values(text))
