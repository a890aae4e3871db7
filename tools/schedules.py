"""Which line of a scenario's schedule made which rows of a journal, and the schedule of given rows.

`Walk` goes through the lines beside the rows, as docs/SCENARIOS.md says what a line does: it counts
what is pending, and decides nothing. What the steps of a storm come to is not reckoned: the program
is asked how many rows there are behind that line. `lines_of` writes a schedule of which each line
makes one of the given rows, as docs/JOURNALS.md says.
"""

import bisect
import re

import journals
import program
from limits import LINES
from program import Unplayed

PARTS = ("scatter", "nodes", "group", "policy", "client", "end", "get", "put", "del", "add", "cas")
WRITTEN = ("storm", "free")  # lines that `written_out` puts other lines in place of
ROWS = re.compile(r"^rows (\d+)$", re.MULTILINE)


def is_read(number, line):
    """Whether a line of a scenario says something; its number is from 1."""
    return bool(line.split()) and not (number > 1 and line.startswith("#"))


def parts_of(scenario):
    """The lines before the schedule, and those of the schedule with their numbers."""
    head, schedule = [], []
    for number, line in enumerate(scenario, 1):
        if not is_read(number, line):
            continue
        if line.split()[0] in PARTS:
            head.append(line)
        else:
            schedule.append((number, line))
    return head, schedule


def actors(scenario):
    """The names of all actors, nodes first."""
    head, _ = parts_of(scenario)
    words = [line.split() for line in head]
    count = next((int(one[1]) for one in words if one[0] == "nodes"), 0)
    clients = sorted(int(one[1]) for one in words if one[0] == "client")
    return [f"n{node}" for node in range(1, count + 1)] + [f"c{one}" for one in clients]


def actor_number(word):
    """The number of an actor of a scenario's line."""
    return int(word[1:]) + (journals.NODES if word[0] == "c" else 0)


def run(path, word, text, seconds=60):
    """Status and output of a program's subcommand, as texts."""
    status, said = program.run(path, word, text.encode("latin-1"), seconds)
    return status, said.decode("latin-1")


class Pending:
    """The mail that is pending after some rows: for each actor the numbers, ascending."""

    def __init__(self, journal):
        self.journal, self.of, self.crashed, self.gone = journal, {}, set(), set()
        self.sent, self.total = 0, 0

    def add(self, number):
        """One more copy of a mail."""
        receiver = self.journal.mail(number).receiver
        if receiver and receiver not in self.crashed:
            bisect.insort(self.of.setdefault(receiver, []), number)
            self.total += 1

    def take(self, row):
        """Goes behind a row."""
        if row.event in ("Deliver", "Drop"):
            mail = self.journal.mail(row.of)
            numbers = self.of.get(mail.receiver, []) if mail else []
            if row.of in numbers:
                numbers.remove(row.of)
                self.total -= 1
        elif row.event == "Again" and self.journal.mail(row.of):
            self.add(row.of)
        elif row.event == "Crash":
            self.crashed.add(row.who)
            self.total -= len(self.of.pop(row.who, []))
        elif row.event == "Go":
            self.gone.add(row.who)
        for mail in row.sent:
            self.sent = mail.number
            self.add(mail.number)

    def count(self):
        """How much is pending."""
        return self.total

    def least(self):
        """The lowest-numbered mail; None where none is pending."""
        return min((numbers[0] for numbers in self.of.values() if numbers), default=None)

    def words(self, most=6):
        """What is pending, in a few words."""
        told = []
        numbers = sorted(number for one in self.of.values() for number in one)
        for number in numbers[:most]:
            mail = self.journal.mail(number)
            told.append(f"{number} to {journals.actor(mail.receiver)} ({mail.kind})")
        more = f" and {len(numbers) - most} more" if len(numbers) > most else ""
        return ", ".join(told) + more


class Played:
    """A line of the schedule: its number, its words, the rows it made, and what it left undone."""

    def __init__(self, number, line, first):
        self.number, self.line, self.first, self.last = number, line.strip(), first, first - 1
        self.skipped, self.cut = None, None

    def rows(self):
        """The rows, in a few words."""
        if self.last < self.first:
            return "no row"
        if self.first == self.last:
            return f"row {self.first}"
        return f"rows {self.first} to {self.last}"


class Walk:
    """All lines of a journal's schedule, each with its rows, as far as there are rows."""

    def __init__(self, journal, asked=None):
        self.journal, self.program = journal, asked
        self.pending, self.place, self.lines = Pending(journal), 0, []
        self.head, schedule = parts_of(journal.scenario)
        for number, line in schedule:
            played = Played(number, line, self.place + 1)
            self.lines.append(played)
            self.play(played, line.split())
            played.last = self.place
        self.left = len(journal.rows) - self.place

    def step(self):
        """Goes behind one more row; whether there is one."""
        if self.place >= len(self.journal.rows):
            return False
        self.pending.take(self.journal.rows[self.place])
        self.place += 1
        return True

    def play(self, played, words):
        """Goes behind the rows of a line."""
        if words[0] in ("settle", "free"):
            self.deliver_many(played, int(words[1]))
        elif words[0] == "storm":
            self.go_behind_storm(played.line)
        else:
            played.skipped = self.why_skipped(words)
            if not played.skipped:
                self.step()

    def deliver_many(self, played, most):
        used = 0
        while used < most and self.pending.count() and self.step():
            used += 1
        if used == most and self.pending.count():
            played.cut = f"{self.pending.count()} pending: {self.pending.words()}"

    def go_behind_storm(self, line):
        """Goes behind the rows of a storm, of which the program says how many there are."""
        if self.program is None:
            raise Unplayed("a storm's rows are known where there is a program to ask")
        before = lines_of(self.journal, self.place)
        text = "\n".join([*self.head, *before, line, ""])
        status, report = run(self.program, "run", text)
        found = ROWS.search(report)
        if status not in (0, 6) or not found:
            raise Unplayed(f"the program does not play the rows before a storm: status {status}")
        while self.place < int(found[1]) and self.step():
            pass

    def why_skipped(self, words):
        """Why a line of one row makes none; None where it makes one."""
        pending, word = self.pending, words[0]
        if word == "again":
            return self.why_not_again(int(words[1]))
        who = actor_number(words[1]) if word in ("deliver", "drop", "tick") else int(words[1])
        if word == "go":
            who += journals.NODES
            return "the client was told to go before" if who in pending.gone else None
        if who in pending.crashed:
            return f"{journals.actor(who)} has crashed"
        if word in ("deliver", "drop"):
            count = len(pending.of.get(who, []))
            if int(words[2]) > count:
                return f"{journals.actor(who)} has {count or 'no'} pending mail"
        return None

    def why_not_again(self, number):
        if number > self.pending.sent:
            return f"mail {number} was not sent yet"
        receiver = self.journal.mail(number).receiver
        if receiver == 0:
            return f"mail {number} is to the desk"
        if receiver in self.pending.crashed:
            return f"{journals.actor(receiver)} has crashed"
        return None

    def line_of_rows(self):
        """The number of the line that made each row, by row."""
        found = {}
        for played in self.lines:
            for row in range(played.first, played.last + 1):
                found[row] = played.number
        return found


# ---- the schedule of given rows


def place_of(pending, mail):
    """Which of an actor's pending mail one is, from 1; None where it is not pending."""
    numbers = pending.of.get(mail.receiver, []) if mail else []
    return numbers.index(mail.number) + 1 if mail and mail.number in numbers else None


def line_of(journal, pending, row):
    """The line that makes a row, behind the rows before; None where there is none."""
    if row.event in ("Deliver", "Drop"):
        mail = journal.mail(row.of)
        place = place_of(pending, mail)
        if place is None:
            return None
        return f"{row.event.lower()} {journals.actor(mail.receiver)} {place}"
    if row.event == "Again":
        return f"again {row.of}"
    if row.event == "Told":
        words = journals.order(row.of["order"]).split(" ")
        return " ".join(["order", str(row.who), *words])
    if row.event == "Go":
        return f"go {row.who - journals.NODES}"
    if row.event == "Crash":
        return f"crash {row.who}"
    return f"tick {journals.actor(row.who)}" if row.event == "Tick" else None


def skipped_orders(pending, count):
    """Orders that are skipped, and take a number each, as those did that no node was told."""
    return [f"order {min(pending.crashed)} merge 0.1"] * count if pending.crashed else []


def lines_of(journal, count):
    """A schedule of which the lines make the first COUNT rows, and no others. Deliveries
    of the lowest-numbered mail in a row are one `settle` line."""
    pending, lines, settled, orders = Pending(journal), [], 0, 0
    for row in journal.rows[:count]:
        if row.event == "Deliver" and row.of == pending.least():
            settled += 1
        else:
            if settled:
                lines.append(f"settle {settled}")
            settled = 0
            line = line_of(journal, pending, row)
            if line is None:
                raise Unplayed(f"no line makes row {row.number}")
            if row.event == "Told":
                lines += skipped_orders(pending, row.of["number"] - orders - 1)
                orders = row.of["number"]
            lines.append(line)
        pending.take(row)
    return [*lines, f"settle {settled}"] if settled else lines


# ---- storms as lines


def rows_of(said):
    """The rows of a stored journal, as they are spelled."""
    return said.partition(b"\njournal\n")[2]


def written_out(journal, asked, mark="# "):
    """A journal's scenario in which each storm and `free` line is the lines of what it did. That
    the program makes the same rows of it is tried."""
    text = "\n".join([*lines_written_out(journal, asked, mark), ""])
    _, said = program.run(asked, "journal", text.encode("latin-1"))
    if rows_of(said) != rows_of(journal.text):
        raise Unplayed("the lines that are written out do not make the same rows")
    return text


def lines_written_out(journal, asked, mark):
    """The lines of a journal's scenario, with those of the rows in place of each storm and `free`
    line, which stands above them behind a mark."""
    found, place, pending = [], 0, Pending(journal)
    by_number = {played.number: played for played in Walk(journal, asked).lines}
    for number, line in enumerate(journal.scenario, 1):
        played = by_number.get(number)
        if played is None or line.split()[0] not in WRITTEN:
            found.append(line)
        elif mark:
            found.append(f"{mark}{played.line}: {played.rows()}")
        if played is None:
            continue
        for row in journal.rows[place : played.last]:
            if line.split()[0] in WRITTEN:
                found.append(line_of(journal, pending, row))
            pending.take(row)
        place = max(place, played.last)
    if len(found) > LINES:
        raise Unplayed(f"that is {len(found)} lines, and a scenario has at most {LINES}")
    return found
