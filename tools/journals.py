"""Reads stored journals: a scenario's lines, the line `journal`, and one JSON row a line.

It is for the tools beside it, which are not proved and say so. It takes the rows as they stand and
does not ask whether they are lawful. `Journal.decided` has what they decided, as the subcommand
`explain` says it (`explained.py`).
"""

import gc
import json
import re
import sys

import explained
from limits import NODES
from program import Unplayed, answering, run

RING = 2**32  # positions on the ring
BAD_SCENARIO = 3  # the program's status


class BadJournal(Exception):
    """A file that is no stored journal: the line, from 1, and why."""


class Mail:
    """One mail: its number from 1 in the order of sending, the row that sent it, and what it says."""

    def __init__(self, number, row, text):
        self.number, self.row = number, row
        self.sender, self.receiver = text["from"], text["to"]
        ((self.kind, self.fields),) = text["body"].items()
        self.cause = None  # of an answer `not leader`, where `causes` has looked for it


class Row:
    """One row: its number from 1, whose it is, its event with the mail's or line's number, and what it sent."""

    def __init__(self, number, text):
        self.number, self.who = number, text["who"]
        event = text["event"]
        if isinstance(event, dict):
            ((self.event, self.of),) = event.items()
        else:
            self.event, self.of = event, None
        self.sent = []


class Journal:
    def __init__(self, text, scenario, rows, mails):
        self.text, self.scenario, self.rows, self.mails = text, scenario, rows, mails
        self.program, self.explained = None, None

    def decided(self):
        """Asks once what the rows decided: of a program, or else of the repository's."""
        if self.explained is None:
            try:
                self.explained = explained.explain(self.text, self.program)
            except explained.Unexplained as fault:
                raise BadJournal(str(fault)) from None
        return self.explained

    def mail(self, number):
        """The mail with this number, if it was sent."""
        return self.mails[number - 1] if 1 <= number <= len(self.mails) else None


def read(name, program=None):
    """Reads a stored journal, or a scenario, which is played first. The name `-` is standard input,
    and a program may be named to play and explain it."""
    return of_data(name, data_of(name), program)


def of_data(name, data, program=None):
    """What `read` makes of what stands in a file."""
    called = "standard input" if name == "-" else name
    if not data.strip():
        raise BadJournal(f"{called} is empty")
    if b"\njournal\n" not in data + b"\n":
        data = played(called, data, program)
    return parsed(called, data, program)


def data_of(name):
    """What stands in a file, or comes on standard input."""
    try:
        if name != "-":
            with open(name, "rb") as file:
                return file.read()
        if sys.stdin.isatty():
            print("reading standard input, until ctrl and D", file=sys.stderr)
        return sys.stdin.buffer.read()
    except OSError as fault:
        raise BadJournal(f"{name}: {fault.strerror}") from None


def played(name, data, program):
    """The journal of a scenario."""
    try:
        status, said = run(answering(program), "journal", data)
    except Unplayed as fault:
        raise BadJournal(f"{name}: {fault}") from None
    if status in (0, 6):
        return said
    why = said.decode("latin-1").strip() or f"status {status}"
    if status != BAD_SCENARIO:
        raise BadJournal(f"{name}: {why}")
    what = "no scenario" if data.startswith(b"scatter ") else "no stored journal, nor a scenario"
    raise BadJournal(f"{name} is {what}: {why}")


def parsed(name, text, program=None):
    """A stored journal's text."""
    lines = text.decode("latin-1").split("\n")
    if lines[-1] == "":
        lines.pop()
    if "journal" not in lines:
        raise BadJournal(f"{name}: no line `journal` ends the scenario")
    end = lines.index("journal")
    gc.disable()  # all of it lives to the end, so to look for garbage in it takes half the time
    rows, mails = [], []
    for place, line in enumerate(lines[end + 1 :], end + 2):
        try:
            said = json.loads(line)
            row = Row(len(rows) + 1, said)
            for one in said["sent"]:
                mail = Mail(len(mails) + 1, row.number, one)
                mails.append(mail)
                row.sent.append(mail)
        except (ValueError, KeyError, TypeError, AttributeError):
            raise BadJournal(f"{name}: line {place} is no row") from None
        rows.append(row)
    journal = Journal(text, lines[:end], rows, mails)
    journal.program = program
    return journal


def actor(number):
    """How a scenario calls an actor."""
    if number == 0:
        return "desk"
    return f"n{number}" if number <= NODES else f"c{number - NODES}"


def kind_and_fields(said):
    """The name of a variant, and its content."""
    if isinstance(said, str):
        return said, {}
    ((kind, fields),) = said.items()
    return kind, fields


def command(said):
    """A command in a few words."""
    if isinstance(said, str):
        return said
    ((kind, fields),) = said.items()
    if kind == "Call":
        return f"Call c{fields['client']} {fields['seq']} {operation(fields['op'])}"
    if kind in ("Join", "Leave"):
        return f"{kind} n{fields['node']}"
    if kind == "Split":
        return f"Split at {fields['at']} child {fields['child']}"
    if kind == "Begin":
        return f"Begin {fields['tx']} {command(fields['body'])}"
    if kind in ("RecordVote", "RecordWatch"):
        return f"{kind} {fields['tx']} {vote(fields['vote'])}"
    if kind == "Finish":
        return f"Finish {fields['tx']} {outcome(fields['outcome'])}"
    if "tx" in fields:
        return f"{kind} {fields['tx']}"
    return phrase(said)


def phrase(said):
    """Anything else: its name, and its fields with theirs."""
    if not isinstance(said, dict):
        return str(said)
    if len(said) != 1:
        return " ".join(f"{name} {phrase(value)}" for name, value in said.items())
    ((kind, fields),) = said.items()
    if not isinstance(fields, dict):
        return kind if fields is None else f"{kind} {phrase(fields)}"
    return " ".join([kind, *(f"{name} {phrase(value)}" for name, value in fields.items() if value is not None)])


def operation(said):
    """A request's operation, as the scenario spells it."""
    ((kind, fields),) = said.items()
    words = [fields[name] for name in ("key", "expect", "value") if name in fields]
    return " ".join([kind.lower(), *words])


def ballot(said):
    """A ballot, so that it does not look like a group's name."""
    return "{} of n{}".format(*said)


def vote(said):
    if isinstance(said, str):
        return said
    ((kind, fields),) = said.items()
    return kind if kind == "Yes" else f"No {phrase(fields)}"


def outcome(said):
    if isinstance(said, str):
        return said
    ((kind, fields),) = said.items()
    if kind == "Merged":
        return f"Merged into {fields['into']['group']}"
    return f"Moved at {fields['at']}" if kind == "Moved" else f"Migrated n{fields['node']}"


def answer(said):
    ((kind, fields),) = said.items()
    if kind == "Value":
        return "none" if fields["old"] is None else f"value {fields['old']}"
    if kind == "NotLeader":
        return "not leader" + ("" if fields["hint"] is None else f", ask n{fields['hint']}")
    if kind == "NotMine":
        lo, length = fields["arc"]
        return f"not mine, mine is {length} positions from {lo} on"
    if kind == "Gone":
        return f"gone into {fields['into']['group']}"
    return f"stale, last is {fields['last']}"


def words(mail):
    """What a mail says, in a few words."""
    kind, said = mail.kind, mail.fields
    start = " ".join([kind, *([said["group"]] if "group" in said else [])])
    tried = f" ballot {ballot(said['ballot'])}" if "ballot" in said else ""
    slot = f" slot {said['slot']}" if "slot" in said else ""
    if kind == "Request":
        return f"{start} {said['seq']}: {operation(said['op'])}"
    if kind == "Answer":
        cause = f" ({mail.cause})" if mail.cause else ""
        return f"{start} {said['seq']}: {answer(said['answer'])}{cause}"
    if kind in ("Accept", "Learn"):
        return f"{start}{slot}{tried}: {command(said['command'])}"
    if kind == "Promise":
        return f"{start}{tried}, {len(said['reports'])} accepted"
    if kind == "Prepare":
        return f"{start}{tried} from slot {said['from_slot']}"
    if kind == "Ask":
        return f"{start} from slot {said['from_slot']}"
    if kind == "Nack":
        return f"{start}, promised {ballot(said['promised'])}"
    if kind == "TxPrepare":
        offer = said["offer"]
        return f"{kind} {said['tx']}: {offer['coord']} asks {offer['part']}, {command(offer['body'])}"
    if kind == "TxVote" or kind == "TxWatched":
        return f"{kind} {said['tx']}: {said['part']} to {said['coord']}, {vote(said['vote'])}"
    if kind == "TxOutcome":
        return f"{kind} {said['tx']}: to {said['part']}, {outcome(said['outcome'])}"
    if kind == "TxWatch":
        return f"{kind} {said['tx']}: {said['watch']['coord']} asks {said['watch']['part']}"
    if kind == "Told":
        return f"Told order {said['order']}: {phrase(said['result'])}"
    return f"{start}{slot}{tried}" + (f" {said['tx']}" if "tx" in said else "")


def order(said):
    """An order, as the scenario spells it."""
    ((kind, fields),) = said.items()
    names = ("node", "group") if kind in ("Join", "Leave") else ("group", "at", "node")
    return " ".join([kind.lower(), *(str(fields[name]) for name in names if name in fields)])


def event(journal, row):
    """What happened to the actor of a row."""
    if row.event in ("Deliver", "Drop"):
        mail = journal.mail(row.of)
        if mail is None:
            return f"{row.event.lower()} {row.of}, which nobody sent"
        verb = "gets" if row.event == "Deliver" else "never gets"
        return f"{verb} {row.of} from {actor(mail.sender)}: {words(mail)}"
    if row.event == "Again":
        return f"mail {row.of} comes again"
    if row.event == "Told":
        return f"is told order {row.of['number']}: {order(row.of['order'])}"
    return {"Go": "goes", "Tick": "ticks", "Crash": "crashes"}.get(row.event, row.event)


def doer(row):
    """Whose row it is: an actor's, or the network's."""
    return "network" if row.who == 0 else actor(row.who)


def effect(said):
    """What a decided command came to, in a few words."""
    word, of = kind_and_fields(said)
    if word in ("Done", "Again"):
        done = "none" if of["old"] is None else f"value {of['old']}"
        return done if word == "Done" else f"{done}, once more"
    if word == "Voted":
        return f"votes {vote(of)}"
    if word == "Decided":
        return outcome(of)
    if word == "Refused":
        return f"refused, {cause(of)}"
    if word == "NotMine":
        return f"not mine, next is {of['succ']['group']}"
    if word == "Gone":
        return f"gone into {of['into']['group']}"
    if word == "NoEffect":
        return f"no effect, by {of['tx']}"
    return f"stale, last is {of['last']}" if word == "Stale" else EFFECTS[word]


EFFECTS = {"Changed": "taken", "Idle": "idle"}


def cause(said):
    """Why an order is refused, as a report spells it."""
    kind, _ = kind_and_fields(said)
    return re.sub("(?<!^)([A-Z])", r"-\1", kind).lower()


def decision(entry):
    """A decided place of a log: the command, and what it came to."""
    return f"{entry.group} slot {entry.slot}: {command(entry.command)} ({effect(entry.effect)})"
