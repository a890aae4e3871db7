"""One order of all rows: each file's lines as they stand, and a delivery behind the row that sent its mail.

A line that waits for a mail waits for the sender's input, which its file names. Mail is numbered by
its place in all that was sent, and each that arrived is compared with what the program prints at
the place that it names: else rows that are made by the program would be lawful by construction.
"""

import collections
import hashlib

from gather import files
from program import scenario
from wire import frames

DIGEST = 16


class Different(files.BadFiles):
    """A mail that arrived is not the one that was sent."""


def digest(mail):
    return hashlib.blake2b(mail, digest_size=DIGEST).digest()


class Actor:
    """One actor: the answers to its inputs, what it sent, and a client's step that is held back."""

    def __init__(self, number, answers):
        self.number, self.answers = number, answers
        self.inputs, self.all = 0, 0  # those that have a place, and all of its file
        self.sent = [None]  # of each input: the number of its first mail, and the digests of all
        self.held = b'"Go"' if number > scenario.NODES else None

    def record(self, first, line):
        """Notes the mail of an input, and returns how many there are."""
        mails = frames.mails(line)
        self.sent.append((first, b"".join([digest(mail) for _, mail in mails])))
        return len(mails)


class Rows:
    """Puts the lines of all files into one order. `row(event, sent, who)` and `told(line)` take what comes of them."""

    def __init__(self, found, program, folder, row, told):
        self.program, self.row, self.told = program, row, told
        self.actors, self.bad, self.mails = {}, 0, 0
        self.taken = set()  # numbers of mail that was delivered
        self.found, self.folder = found, folder
        self.waiting = collections.defaultdict(list)  # by sender and input, the files whose next line waits for it

    # ---- the beginning

    def read(self):
        """Hands each actor's inputs to a program of its own."""
        for one in self.found:
            for actor, line in one.lines():
                if actor is None:
                    continue
                if actor not in self.actors:
                    answers = files.Answers(self.program, actor, one.scenario, self.folder)
                    self.actors[actor] = Actor(actor, answers)
                self.actors[actor].answers.add(line)
                self.actors[actor].all += 1

    def make(self):
        """Makes all rows."""
        self.read()
        try:
            ready = collections.deque((one, one.lines(), None) for one in self.found)
            while ready:
                one, lines, line = ready.popleft()
                line = line or next(lines, None)
                if line is None:
                    continue
                missing = self.missing(line)
                if missing:
                    self.waiting[missing].append((one, lines, line))
                    continue
                actor = self.take(one, *line)
                ready.append((one, lines, None))
                if actor:
                    ready.extend(self.waiting.pop((actor.number, actor.inputs), ()))
            self.check_none_waits()
            self.close_held()
        finally:
            for actor in self.actors.values():
                actor.answers.close()

    def missing(self, said):
        """The sender and its input that a line waits for, or nothing."""
        _, line = said
        if line[:2] != b"m ":
            return None
        sender, number, _, _ = origin(line)
        actor = self.actors.get(sender)
        return None if actor and actor.inputs >= number else (sender, number)

    def check_none_waits(self):
        """Where a line waits for ever, the sender's file lacks what it sent, or some wait for each other."""
        if not self.waiting:
            return
        totals = {number: actor.all for number, actor in self.actors.items()}
        lacking = [key for key in self.waiting if totals.get(key[0], 0) < key[1]]
        sender, number = min(lacking or self.waiting)
        one, _, (actor, line) = self.waiting[sender, number][0]
        why = f"whose file has {totals.get(sender, 0)}" if lacking else "which waits for what this leads to"
        raise Different(
            f"{one.name}: {scenario.name(actor)} got a mail of input {number} of {scenario.name(sender)}, {why}:"
            f" {line.decode('latin-1')}"
        )

    # ---- lines

    def take(self, one, actor, line):
        """Takes the next line of a file."""
        if actor is None:
            self.told(line)
            return None
        actor = self.actors[actor]
        mail = self.compare(one, actor, line) if line[:2] == b"m " else None
        said = actor.answers.next()
        actor.inputs += 1
        if said.startswith(b'{"bad"'):
            self.bad += 1
            actor.sent.append((self.mails, b""))
        elif actor.number <= scenario.NODES:
            self.add(actor, event(line, mail), said, mail)
        else:
            self.add_client(actor, line, said, mail)
        return actor

    def add(self, actor, what, sent, mail):
        """Adds a row, behind a row of the network where a mail comes once more."""
        if mail is not None:
            if mail in self.taken:
                self.row(b'{"Again":%d}' % mail, b"[]", 0)
            self.taken.add(mail)
        self.row(what, sent, actor.number)
        self.mails += actor.record(self.mails + 1, sent)

    def add_client(self, actor, line, said, mail):
        """A client's row is made with what it sends: that of a step that is held back, with the next request."""
        if line[:2] == b"a ":
            what, actor.held = actor.held, None
            self.add(actor, what, said[len(b'{"sent":') : -1], number_in(what))
            return
        if actor.held is None and said.startswith(b'{"reply"'):
            actor.held = event(line, mail)
        elif actor.held is None:
            self.add(actor, event(line, mail), said[len(b'{"sent":') : -1], mail)
            return
        actor.sent.append((self.mails, b""))

    def close_held(self):
        """No request comes any more: the steps that are held back are made, and send nothing."""
        for number, actor in sorted(self.actors.items()):
            if actor.held not in (None, b'"Go"'):
                self.add(actor, actor.held, b"[]", number_in(actor.held))
        del number

    def compare(self, one, actor, line):
        """The number of a mail that arrived, which is the one that was sent at the place that it names."""
        sender, number, place, mail = origin(line)
        first, digests = self.actors[sender].sent[number]
        at = place * DIGEST
        if digests[at : at + DIGEST] != digest(mail):
            was = self.printed(one, sender, number, place)
            raise Different(
                f"{one.name}: input {actor.inputs + 1} of {scenario.name(actor.number)} is not the mail that"
                f" {scenario.name(sender)} sent at its input {number}, place {place}\n"
                f"  arrived: {mail.decode('latin-1')}\n  sent:    {was}"
            )
        return first + place

    def printed(self, one, sender, number, place):
        """What the program sends at an input, for a message: it is asked once more."""
        again = files.Answers(self.program, sender, one.scenario, self.folder)
        try:
            for file in self.found:
                for actor, line in file.lines() if sender in file.actors else ():
                    if actor == sender:
                        again.add(line)
            for _ in range(number):
                said = again.next()
            mails = frames.mails(said if said[:1] == b"[" else said[len(b'{"sent":') : -1])
            return mails[place][1].decode("latin-1") if place < len(mails) else "nothing"
        finally:
            again.close()


def origin(line):
    """Of a line with a mail: its sender, the sender's input and the place there, and the mail."""
    number, place, mail = frames.split(line[2:])
    ends = frames.ends_of(mail)
    if ends is None or number == 0:
        raise files.BadFiles(f"a mail that is none: {line[:200].decode('latin-1')}")
    return ends[0], number, place, mail


def event(line, mail):
    """The event of a row."""
    if mail is not None:
        return b'{"Deliver":%d}' % mail
    return b'"Tick"' if line == b"t" else b'{"Told":%s}' % line[2:]


def number_in(what):
    """The number of the mail that an event delivers, or nothing."""
    return int(what[len(b'{"Deliver":') : -1]) if what.startswith(b'{"Deliver"') else None
