"""The page of a history, for `history --page`: what the program says of it, and the requests of each key as bars.

The answer and the order are the program's. Of a history that is not linearizable it is asked once
more, of the lines before the one that it names, for the order of the last prefix that fits.
"""

import json
import os
import re
import subprocess

import program
import reference
from history_text import NEVER, BadHistory, requests

HERE = os.path.dirname(os.path.abspath(__file__))
PARTS = os.path.join(HERE, "history_parts")
YES, NO, UNDECIDED = 0, 10, 11
SAID = re.compile(r"(?:not linearizable|undecided)\nline (at most )?(\d+)\nkey (\S+)\n")


def command(named):
    """The command that answers: this program's or the script's, or the reference's."""
    if named:
        return [program.answering(named), "linear"]
    helps = [program.SCRIPT, "help"]
    said = subprocess.run(helps, stdin=subprocess.DEVNULL, capture_output=True, check=False)
    if b"scatter linear" in said.stdout:
        return [program.SCRIPT, "linear"]
    other = reference.build()
    if other is None:
        raise BadHistory(None, "neither the program nor the reference can say whether it is linearizable")
    return [other, "linear"]


class Asked:
    """What the program says of a history, and of its prefix before the line that is at fault."""

    def __init__(self, data, words, most):
        self.words = [*words, "order", *([str(most)] if most else [])]
        self.line, self.key, self.exact, self.order = None, None, True, None
        self.status, said = self.run(data)
        if self.status not in (YES, NO, UNDECIDED):
            raise BadHistory(None, said.strip() or f"{words[0]} ended with status {self.status}")
        if self.status == YES:
            self.order = self.places(said)
            return
        found = SAID.match(said)
        self.exact, self.line, self.key = not found[1], int(found[2]), found[3]
        if self.status == NO:
            status, said = self.run(b"\n".join(data.split(b"\n")[: self.line - 1]) + b"\n")
            self.order = self.places(said) if status == YES else None

    def run(self, data):
        done = subprocess.run(self.words, input=data, stdout=subprocess.PIPE, check=False)
        return done.returncode, done.stdout.decode("latin-1")

    def places(self, said):
        """The lines where the requests of the order began, and what each met."""
        found = []
        for line in said.split("\n")[3:-1]:
            words = line.split(" ")
            value = None if words[-1] == "none" and words[-2] != "value" else words[-1]
            found.append((int(words[0]), value))
        return found


def told(request):
    """How a request ended, as its line says it; nothing where it is open."""
    return " ".join(request.end) if request.end else ""


def data_of(text, asked, title):
    """What the page knows."""
    all_of = requests(text)
    keys = sorted({one.key for one in all_of})
    numbers = {key: place for place, key in enumerate(keys)}
    rows = [
        [one.begun, 0 if one.ended == NEVER else one.ended, one.process, numbers[one.key],
         " ".join(one.words), told(one)]
        for one in all_of
    ]
    return {
        "title": title,
        "answer": {YES: "linearizable", NO: "not linearizable", UNDECIDED: "undecided"}[asked.status],
        "line": asked.line,
        "exact": asked.exact,
        "key": None if asked.key is None else numbers[asked.key],
        "lines": text.count("\n") + (not text.endswith("\n")),
        "keys": keys,
        "requests": rows,
        "order": asked.order,
    }


def part(name):
    with open(os.path.join(PARTS, name), encoding="utf-8") as file:
        return file.read()


def quoted(text):
    """A text for HTML."""
    return text.replace("&", "&amp;").replace("<", "&lt;").replace(">", "&gt;")


def page(data, by, most, title):
    """The bytes of the whole file."""
    said = data_of(data.decode("latin-1"), Asked(data, command(by), most), title)
    inside = json.dumps(said, separators=(",", ":")).replace("<", "\\u003c")
    holes = {
        "{title}": quoted(title),
        "{style}": part("history.css"),
        "{data}": inside,
        "{script}": part("history.js"),
    }
    pieces = [part("history.html")]
    for hole, filling in holes.items():
        before, after = pieces.pop().split(hole, 1)
        pieces += [before, filling, after]
    return "".join(pieces).encode()
