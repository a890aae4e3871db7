"""What the page of tools/edit shows of a run's rows, and the text that leads to one of them.

A journal that is short is read in this process, so that a step of a game is shown at once; a long
one by tools/page, which can be ended. Which rows a storm made is asked of the program, once for each
text.
"""

import gc
import hashlib
import itertools
import json
import os
import re
import sys

import explained
import journals
import page_data
import schedules
from edit_calls import NO_ANSWER, Refused

TOOLS = os.path.dirname(os.path.abspath(__file__))
SHORT = 1_500_000  # bytes of a journal that is read in this process
MOST_STORMS = 4096  # of which it is kept how many rows there are behind them
ROWS = re.compile(rb"^rows (\d+)$", re.MULTILINE)
FREES = "these lines behind the schedule free it"


class Walk(schedules.Walk):
    """The lines beside the rows; what a storm came to is asked by a call that can be ended."""

    def __init__(self, journal, rows_behind):
        self.rows_behind = rows_behind
        super().__init__(journal)

    def go_behind_storm(self, line):
        before = schedules.lines_of(self.journal, self.place)
        count = self.rows_behind("\n".join([*self.head, *before, line, ""]))
        while self.place < count and self.step():
            pass


class Storms:
    """How many rows a text makes whose last line is a storm."""

    def __init__(self, runs, run, asker):
        self.runs, self.run, self.asker = runs, run, asker

    def rows_behind(self, text):
        data = text.encode("latin-1")
        name = hashlib.sha256(data).digest()
        known = self.runs.storms
        if name not in known:
            while len(known) >= MOST_STORMS:
                known.pop(next(iter(known)))
            known[name] = self.ask(data)
        return known[name]

    def ask(self, data):
        file, _ = self.runs.program.now()
        given, calls = self.run.file("said.in"), self.runs.calls
        with open(given, "wb") as target:
            target.write(data)
        try:
            words, seconds = [file, "run"], self.runs.seconds
            calls.run(words, given, self.run.said, seconds, self.asker, self.run.number)
        finally:
            os.remove(given)
        with open(self.run.said, "rb") as report:
            found = ROWS.search(report.read())
        if not found:
            raise schedules.Unplayed("the program does not play the rows before a storm")
        return int(found[1])


def journal_of(run):
    """The journal of a run, with what its rows decided."""
    try:
        journal = journals.read(run.journal)
    except journals.BadJournal as fault:
        raise Refused(NO_ANSWER, f"the rows cannot be read: {fault}") from None
    finally:
        gc.enable()
    if os.path.exists(run.explained):
        with open(run.explained, encoding="latin-1") as file:
            journal.explained = explained.Explained(file)
    return journal


def write_data(runs, run, file, asker):
    """Writes what the page of the rows has, as JSON."""
    if os.path.getsize(run.journal) > SHORT:
        words = [sys.executable, "-B", os.path.join(TOOLS, "page"), "--data", "--by", file]
        words += ["--explained", run.explained, run.journal, run.data + ".part"]
        words += ["--title", f"run {run.number}"]
        status = runs.calls.run(words, os.devnull, run.said, runs.seconds, asker, run.number)
        if status != 0:
            raise Refused(NO_ANSWER, "tools/page could not read the journal")
    else:
        walks = Storms(runs, run, asker)
        page = page_data.Page(journal_of(run), lambda one: Walk(one, walks.rows_behind))
        said = json.dumps(page.all(f"run {run.number}"), separators=(",", ":"))
        with open(run.data + ".part", "w", encoding="ascii") as target:
            target.write(said)
    os.rename(run.data + ".part", run.data)


# ---- the text that leads to a row


def explicit(journal, first, last):
    """Lines that make these rows and no others, behind the rows before."""
    pending, lines, settled = schedules.Pending(journal), [], 0
    for row in journal.rows[:last]:
        if row.number >= first:
            if row.event == "Deliver" and row.of == pending.least():
                settled += 1
            else:
                lines += [f"settle {settled}"] * bool(settled)
                settled = 0
                lines.append(schedules.line_of(journal, pending, row))
        pending.take(row)
    return lines + [f"settle {settled}"] * bool(settled)


def lines_to(journal, walk, lines, row):
    """The lines of a text up to a row. Deliveries without a fixed order get one."""
    if not walk.lines:
        return lines
    kept, end = lines[: walk.lines[0].number - 1], walk.lines[0].number - 1
    for played in walk.lines:
        if played.first > row:
            break
        kept += lines[end : played.number - 1]
        end = played.number
        if played.last <= row and played.line.split()[0] != "free":
            kept.append(lines[played.number - 1])
        elif played.first <= min(played.last, row):
            kept += explicit(journal, played.first, min(played.last, row))
    return kept


def text_to(runs, run, row, asker):
    """The text of a run, with its schedule ended behind a row."""
    journal = journal_of(run)
    try:
        walk = Walk(journal, Storms(runs, run, asker).rows_behind)
    except schedules.Unplayed as fault:
        raise Refused(NO_ANSWER, str(fault)) from None
    with open(run.input, encoding="utf-8", errors="replace", newline="") as file:
        lines = file.read().split("\n")
    return "\n".join([*lines_to(journal, walk, lines, row), ""])


# ---- two runs


def rows_of(file):
    """The lines behind the line `journal`."""
    for line in file:
        if line == b"journal\n":
            break
    return file


def first_apart(one, other):
    """The first row in which two runs differ; 0 where they have the same rows."""
    with open(one.journal, "rb") as first, open(other.journal, "rb") as second:
        pairs = itertools.zip_longest(rows_of(first), rows_of(second))
        return next((row for row, (a, b) in enumerate(pairs, 1) if a != b), 0)


def freeing_lines(said):
    """The lines that tools/why found, of what it printed."""
    head, found, tail = said.partition(f"{FREES}, as tried:\n")
    return [line.strip() for line in tail.splitlines()] if found else []
