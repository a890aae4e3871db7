"""Runs of the page of tools/edit: what is asked of the program about a text.

A run is of one text. It is played for its report, or for its rows; what else is asked of it follows
one after another: rows, audit, scans, and lines that free what waits. A newer run of the same page
ends what still goes on for an older one, so that a page whose text changes never waits for an answer
that is not wanted any more. Several runs are kept, so that two pages, or two ways of one page, can
be looked at. All files stand in one folder, which is given.
"""

import contextlib
import os
import sys
import tempfile
import threading
import time

import edit_calls
import edit_check
import edit_rows
import edit_states
from edit_calls import BUSY, GONE, NO_ANSWER, Refused

MOST_INPUT = 16_777_216  # bytes of a scenario that the program takes
MOST_KEPT = 12  # runs
MOST_BYTES = 2**30  # of files of runs that are kept beside the last
CHECK_SECONDS = 10
CHECKS = 2  # that go on at a time
BAD_INPUT, CUT_OFF = 3, 6  # statuses of the program


class Program:
    """The proved program as soon as it is built, and else the unproved one that is kept."""

    def __init__(self, proved, kept):
        self.proved, self.kept = proved, kept

    def now(self):
        """Which program answers now, and whether it is the proved one."""
        for file, is_proved in ((self.proved, True), (self.kept, False)):
            if file and os.access(file, os.X_OK):
                return file, is_proved
        raise Refused(NO_ANSWER, "the program is gone: end this, and call ./scatter edit again")


class Run:
    """One run: its number, the page that asked for it, and which files have come of it."""

    ENDS = ("scatter", "report", "journal", "explained", "json", "said", "said.in")

    def __init__(self, number, page, folder):
        self.number, self.page, self.folder = number, page, folder
        self.input, self.report = self.file("scatter"), self.file("report")
        self.journal, self.explained = self.file("journal"), self.file("explained")
        self.data, self.said = self.file("json"), self.file("said")
        self.status = None  # of the journal, once there is one

    def file(self, end):
        return os.path.join(self.folder, f"run.{self.number}.{end}")

    def files(self):
        return [name for name in map(self.file, self.ENDS) if os.path.exists(name)]

    def bytes(self):
        return sum(os.path.getsize(name) for name in self.files())

    def remove(self):
        for name in self.files():
            with contextlib.suppress(FileNotFoundError):
                os.remove(name)


class Runs:
    """All runs of all pages; the last ones are kept."""

    def __init__(self, program, folder, seconds, memory=0):
        self.program, self.folder, self.seconds = program, folder, seconds
        self.calls = edit_calls.Calls(folder, memory)
        self.guard = threading.Lock()  # of the fields below
        self.kept, self.number, self.playing = {}, 0, None
        self.active = []  # who is answered now, each with the number of its run
        self.storms, self.with_node = {}, {}
        self.at_work = threading.Lock()  # whoever has it calls the program for a run
        self.at_check = threading.Semaphore(CHECKS)

    # ---- who may go on

    @property
    def is_busy(self):
        """Whether anything goes on for a run, of whichever page."""
        return self.at_work.locked()

    @contextlib.contextmanager
    def turn(self, lock, asker, seconds, said):
        """Waits for a lock while who asked is there."""
        until = time.monotonic() + seconds
        while not lock.acquire(timeout=edit_calls.LOOK):
            if asker.is_dropped:
                raise Refused(GONE, edit_calls.STOPPED)
            if asker.is_gone():
                raise Refused(GONE, "the page that asked is gone")
            if time.monotonic() >= until:
                raise Refused(NO_ANSWER, said)
        try:
            yield
        finally:
            lock.release()

    @contextlib.contextmanager
    def playing_for(self, asker):
        """A new run of a page, which ends older work of the same page; one page plays at a time."""
        with self.guard:
            if self.playing is not None and self.playing != asker.page:
                raise Refused(BUSY, "another run is under way: wait for it, or stop it")
            self.playing = asker.page
            self.number += 1
            run = self.kept[self.number] = Run(self.number, asker.page, self.folder)
            self.active.append((asker, run.number))
        self.drop(lambda other, number: other.page == asker.page and number < run.number)
        try:
            with self.work(run.number, asker):
                self.forget()
                yield run
        finally:
            with self.guard:
                if self.number == run.number or self.playing != asker.page:
                    self.playing = None

    def forget(self):
        """Removes the oldest runs, where too many or too large ones are kept."""
        with self.guard:
            numbers = sorted(self.kept)
            sizes = {number: self.kept[number].bytes() for number in numbers}
            while len(numbers) > 1 and (
                len(numbers) > MOST_KEPT or sum(sizes[one] for one in numbers) > MOST_BYTES
            ):
                self.kept.pop(numbers.pop(0)).remove()

    @contextlib.contextmanager
    def following(self, number, asker):
        """A run that is kept, with nothing else at work."""
        with self.guard:
            self.active.append((asker, number))
        with self.work(number, asker):
            run = self.kept.get(number)
            if run is None:
                raise Refused(GONE, "this run is not kept any more: run it again")
            yield run

    @contextlib.contextmanager
    def work(self, number, asker):
        """Waits until nothing else is at work for who asked, one of those that are active."""
        try:
            with self.turn(self.at_work, asker, self.seconds, "other work is under way: stop it"):
                yield
        finally:
            with self.guard:
                self.active.remove((asker, number))

    def drop(self, is_meant):
        """Ends what goes on for some of those who asked, or will go on for them."""
        with self.guard:
            for asker, number in self.active:
                if is_meant(asker, number):
                    asker.is_dropped = True
        self.calls.stop(lambda call: call.asker.is_dropped)

    def stop(self):
        """Ends all that goes on for runs."""
        self.drop(lambda *_: True)

    # ---- what is asked of a text

    def check(self, text, asker):
        """What is wrong with a text, `line L: REASON`, or nothing; and what should stand there.

        An audit of no rows reads the scenario and plays nothing. A text with a line `journal`
        would end there for an audit, but is refused by a run before anything is played.
        """
        word, read_text = "run", text
        if b"\njournal\n" not in b"\n" + text + b"\n":
            word = "audit"
            read_text += (b"" if text.endswith(b"\n") else b"\n") + b"journal\n"
        file, is_proved = self.program.now()
        with self.turn(self.at_check, asker, CHECK_SECONDS, "other checks are under way"):
            with tempfile.TemporaryDirectory(prefix="check.", dir=self.folder) as folder:
                given, out = os.path.join(folder, "in"), os.path.join(folder, "out")
                write(given, read_text)
                status = self.calls.run([file, word], given, out, CHECK_SECONDS, asker)
                said = read(out).strip() if status == BAD_INPUT else ""
        return {**edit_check.explained(said, text), "proved": is_proved}

    def run(self, text, asker):
        """Plays a text for its report."""
        with self.playing_for(asker) as run:
            write(run.input, text)
            return self.report_of(run, asker)

    def play(self, text, asker):
        """Plays a text for its rows: what came of it, and what the page of the rows has, as JSON."""
        with self.playing_for(asker) as run:
            write(run.input, text)
            head = {"run": run.number, **self.journal_of(run, asker)}
            if run.status in (0, CUT_OFF):
                return head, self.data_of(run, asker)
            return head, b"null"

    # ---- what is asked of a run

    def report_of(self, run, asker):
        file, is_proved = self.program.now()
        begun = time.monotonic()
        words = [file, "run"]
        status = self.calls.run(words, run.input, run.report, self.seconds, asker, run.number)
        said = {"run": run.number, "status": status, "said": read(run.report)}
        return {**said, "proved": is_proved, "seconds": time.monotonic() - begun}

    def journal_of(self, run, asker):
        """Plays the text for its journal."""
        file, is_proved = self.program.now()
        begun = time.monotonic()
        words = [file, "journal"]
        status = self.calls.run(words, run.input, run.journal, self.seconds, asker, run.number)
        said = ""
        if status in (0, CUT_OFF):
            run.status = status
        else:
            said = read(run.journal)[:4096]
        took = time.monotonic() - begun
        return {"status": status, "said": said, "proved": is_proved, "seconds": took}

    def data_of(self, run, asker):
        """What the page of the rows has, as JSON."""
        if not os.path.exists(run.data):
            file, _ = self.program.now()
            words = [file, "explain"]
            seconds = self.seconds
            status = self.calls.run(words, run.journal, run.explained, seconds, asker, run.number)
            if status != 0:
                raise Refused(NO_ANSWER, f"the rows were not explained: status {status}")
            edit_rows.write_data(self, run, file, asker)
        with open(run.data, "rb") as data:
            return data.read()

    def report(self, number, asker):
        """The report of a run that was played for its rows."""
        with self.following(number, asker) as run:
            return self.report_of(run, asker)

    def rows(self, number, asker):
        """What the page of the rows has of a run."""
        with self.following(number, asker) as run:
            if run.status is None:
                said = self.journal_of(run, asker)
                if run.status is None:
                    raise Refused(NO_ANSWER, f"no rows: status {said['status']}")
            return self.data_of(run, asker)

    def audit(self, number, asker):
        """What an audit says of the journal."""
        with self.following(number, asker) as run:
            return self.said_of(run, "audit", self.with_rows(run).journal, [], asker)

    def scan(self, number, words, asker):
        """What the store holds, by the words of a scan."""
        with self.following(number, asker) as run:
            return self.said_of(run, "scan", run.input, words, asker)

    def with_rows(self, run):
        if run.status is None:
            raise Refused(GONE, "its rows were not asked for")
        return run

    def said_of(self, run, word, given, words, asker):
        file, is_proved = self.program.now()
        words = [file, word, *words]
        status = self.calls.run(words, given, run.said, self.seconds, asker, run.number)
        return {"status": status, "said": read(run.said), "proved": is_proved}

    def frees(self, number, what, asker):
        """Lines that free a request or an order that waits, found by runs."""
        with self.following(number, asker) as run:
            file, _ = self.program.now()
            why = os.path.join(edit_rows.TOOLS, "why")
            words = [sys.executable, "-B", why, "--by", file, self.with_rows(run).journal, *what]
            seconds = self.seconds
            status = self.calls.run(words, os.devnull, run.said, seconds, asker, number)
            if status not in (0, 1):
                raise Refused(NO_ANSWER, "tools/why could not read the journal")
            return {"lines": edit_rows.freeing_lines(read(run.said))}

    def cut(self, number, row, asker):
        """The text whose schedule ends with a row of a run."""
        with self.following(number, asker) as run:
            return {"text": edit_rows.text_to(self, self.with_rows(run), row, asker)}

    def states(self, number, node, asker):
        """What `scatter node` says of a node behind each of its rows, where the program has that."""
        with self.following(number, asker) as run:
            file, _ = self.program.now()
            journal = self.with_rows(run).journal
            if file not in self.with_node:
                said = self.said_of(run, "help", os.devnull, [], asker)["said"]
                self.with_node[file] = "node N" in said
            if not self.with_node[file]:
                return {"states": None}
            rows = edit_states.write_inputs(journal, node, run.file("said.in"))
            words, given = [file, "node", str(node)], run.file("said.in")
            self.calls.run(words, given, run.said, self.seconds, asker, run.number)
            return {"states": edit_states.states_of(rows, run.said)}

    def differ(self, one, other, asker):
        """The first row in which two runs differ, or nothing."""
        with self.following(one, asker) as run:
            second = self.kept.get(other)
            if second is None:
                raise Refused(GONE, "the other run is not kept any more: run it again")
            return {"row": edit_rows.first_apart(self.with_rows(run), self.with_rows(second))}


def write(name, text):
    with open(name, "wb") as file:
        file.write(text)


def read(name):
    with open(name, encoding="utf-8", errors="replace") as file:
        return file.read()
