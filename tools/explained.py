"""Reads what a stored journal decided, as the subcommand `explain` prints it.

docs/JOURNALS.md has its lines. They are asked of the program where its usage line names the
subcommand, and else of the implementation in reference/, which cargo builds. Nothing is found out
here: each line is taken as it is.
"""

import json
import os
import subprocess
import sys

import reference

SCRIPT = os.path.join(reference.HERE, "scatter")
NOT_LAWFUL = 9  # the status after a row that is not lawful
NO_ANSWER = 120  # the least status of the script where the program does not answer
ROLES = {"Coordinating": "asks", "Promised": "voted yes", "Watching": "watches"}
ASKS = ROLES["Coordinating"]
OPTION = {
    "metavar": "PROGRAM",
    "help": "the program that says what the rows decided; else ./scatter",
}


class Unexplained(Exception):
    """Says why it is not known what a journal decided."""


class Entry:
    """Holds an entry of a group's log: the row that decided it, its slot, command and effect."""

    def __init__(self, row, said):
        self.row, self.group, self.slot = row, said["group"], said["slot"]
        self.command, self.effect = said["command"], said["effect"]


class Record:
    """Holds a group from some row on, by its own log: a role in a transaction, or None for both."""

    def __init__(self, row, said):
        self.row, self.group = row, said["name"]
        self.arc, self.members = said["arc"], said["members"]
        self.succ, self.pred, self.gone = said["succ"], said["pred"], said["gone"]
        self.role, self.tx = None, None
        if said["lock"] != "Free":
            ((role, self.tx),) = said["lock"].items()
            self.role = ROLES[role]


class Explained:
    """Holds all that a journal decided, in the order of its rows."""

    def __init__(self, lines):
        self.groups, self.entries, self.records, self.rings = [], [], [], []
        takes = {
            "birth": lambda row, said: self.groups.append(said["group"]),
            "entry": lambda row, said: self.entries.append(Entry(row, said)),
            "record": lambda row, said: self.records.append(Record(row, said)),
            "ring": lambda row, said: self.rings.append((row, cuts(said))),
        }
        for line in lines:
            fact = json.loads(line)
            row = fact.pop("row")
            ((kind, said),) = fact.items()
            if kind in takes:
                takes[kind](row, said)


def cuts(ring):
    """Sorts the arcs of a ring by their start: where each begins, its length, and whose it is."""
    return sorted((lo, length, group) for group, (lo, length) in ring)


def has_subcommand(*words):
    """Tries whether the usage line of a program, or the help of the script, names the subcommand."""
    usage = subprocess.run(
        [*words, "help"], stdin=subprocess.DEVNULL, capture_output=True, check=False
    )
    return b"scatter explain" in usage.stdout


def command(program=None):
    """Finds the command that explains: this program's or the repository's, or the reference's."""
    asked = program or SCRIPT
    try:
        if has_subcommand(asked):
            return [asked, "explain"]
    except OSError as fault:
        raise Unexplained(f"{asked}: {fault.strerror}") from None
    return of_reference()


def of_reference():
    """Returns the reference's command that explains."""
    other = reference.build()
    if other is None:
        raise Unexplained("neither the program nor the reference can say what was decided")
    return [other, "explain"]


def explain(text, program=None):
    """Asks what the rows of a stored journal decided: all, or those before the first unlawful one."""
    words = command(program)
    done = run(words, text)
    if done.returncode >= NO_ANSWER and words[0] == SCRIPT:
        words = of_reference()
        done = run(words, text)
    if done.returncode == NOT_LAWFUL:
        row = int(done.stdout.split()[-1])
        known = "only what the rows before it decided is known"
        print(f"row {row} is not lawful: {known}", file=sys.stderr)
        done = run(words, first_rows(text, row - 1))
    if done.returncode:
        said = done.stdout.decode("latin-1").strip()
        raise Unexplained(said or f"{words[0]} ended with status {done.returncode}")
    return Explained(done.stdout.decode("latin-1").splitlines())


def run(words, text):
    return subprocess.run(words, input=text, stdout=subprocess.PIPE, check=False)


def first_rows(text, count):
    """Cuts a stored journal after COUNT rows."""
    lines = text.split(b"\n")
    end = lines.index(b"journal") + 1 + count
    return b"\n".join(lines[:end]) + b"\n"
