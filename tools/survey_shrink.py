"""Makes a scenario as short as it may be while its run still has a wished outcome.

Lines of the schedule are left out, in halves first and one by one at last, and storms are made
shorter. Then what storms and `free` lines did is written out as lines of their own, of which some
can be left out again; and groups, clients, nodes and requests go that are not needed. All this is
repeated until none of these steps leaves the outcome. Candidates are tried in a fixed order,
several at a time, and the first in that order that holds is taken, so the result is the same each
time, unless `free` lines make it otherwise.
"""

import concurrent.futures
import re
import sys
import time

import calls
import ending
import journals
import progress
import schedules
import survey_parts
import survey_runs
import survey_wishes
from schedules import PARTS, is_read
from survey_runs import Refused

PLAIN = 30.0  # seconds between two plain lines of progress
LENGTH = re.compile(r"^(\s*storm\s+\d+\s+)(\d+)(.*)$")


# ---- runs


class Wishes:
    """All wishes of a survey, each of which has to hold, and how runs are tried."""

    def __init__(self, program, asked, text):
        self.program, self.asked = program, asked
        self.tests = [survey_wishes.wish(words, text) for words in asked.shrink]
        self.runs = 0

    def holds(self, text):
        """Whether a scenario has what is wished."""
        words, given = [self.program, "run"], text.encode("latin-1")
        status, report = calls.call(words, given, self.asked.seconds)
        return all(test(status, report.decode("latin-1")) for test in self.tests)

    def first(self, pool, candidates):
        """The first of some candidates that holds, each with its text; None where none does."""
        candidates = list(candidates)
        for start in range(0, len(candidates), self.asked.jobs):
            some = candidates[start : start + self.asked.jobs]
            self.runs += len(some)
            for one, holds in zip(some, pool.map(self.holds, [one.text() for one in some])):
                if holds:
                    return one
        return None


# ---- schedules


class Schedule:
    """A scenario with some of its schedule's lines."""

    def __init__(self, head, lines):
        self.head, self.lines = head, lines

    def size(self):
        """What gets less at each step: nothing is left out twice."""
        return len(self.head), sum(len(line) for line in self.head), len(self.lines), self.steps()

    def text(self):
        return "\n".join([*self.head, *self.lines, ""])

    def steps(self):
        """How many steps the storms have."""
        return sum(int(found[2]) for found in map(LENGTH.match, self.lines) if found)

    def without(self, start, count):
        return Schedule(self.head, self.lines[:start] + self.lines[start + count :])

    def shorter(self):
        """The schedules with one storm made shorter, the shortest first."""
        for place, line in enumerate(self.lines):
            found = LENGTH.match(line)
            length = int(found[2]) if found else 1
            tried = {1, length // 8, length // 4, length // 2, length * 3 // 4, length - 1}
            for fewer in sorted(one for one in tried if 1 <= one < length):
                other = f"{found[1]}{fewer}{found[3]}"
                yield Schedule(self.head, [*self.lines[:place], other, *self.lines[place + 1 :]])


def parted(text):
    """A scenario's text as a schedule behind its other lines."""
    head, lines = [], []
    for number, line in enumerate(text.split("\n"), 1):
        if not is_read(number, line):
            continue
        (head if line.split()[0] in PARTS else lines).append(line.rstrip("\r"))
    return Schedule(head, lines)


class Shown:
    """How far it is: a line on a terminal, and else a plain line each half minute."""

    def __init__(self, whole):
        self.whole, self.said, self.is_terminal = whole, time.monotonic(), sys.stderr.isatty()

    def step(self, now, runs):
        """Says what is left."""
        words = f"{left(now, self.whole)}, {runs} runs"
        if self.is_terminal:
            sys.stderr.write(f"\r\033[K{words}")
            sys.stderr.flush()
        elif time.monotonic() - self.said >= PLAIN:
            self.said = time.monotonic()
            print(f"survey: {words}", file=sys.stderr, flush=True)

    def clear(self):
        if self.is_terminal:
            sys.stderr.write("\r\033[K")
            sys.stderr.flush()


def left(now, whole):
    """How much is left of a scenario, in a few words."""
    steps = f"{now.steps()} of {whole.steps()} steps of storms"
    if whole.steps() and not now.steps():
        steps = "storms written out"
    return f"{len(now.lines)} lines of a schedule of {len(whole.lines)}, {steps}"


class Shrinking:
    """A scenario that gets shorter; `now` is the shortest so far that has what is wished."""

    def __init__(self, wishes, source):
        self.wishes, self.whole = wishes, parted(source)
        self.now, self.shown = self.whole, Shown(self.whole)

    def is_shorter(self, pool, candidates):
        """Takes the first candidate that holds, if there is one."""
        other = self.wishes.first(pool, candidates)
        if other is not None:
            self.now = other
        self.shown.step(self.now, self.wishes.runs)
        return other is not None

    def all(self):
        """Leaves out all that can be left out."""
        with concurrent.futures.ThreadPoolExecutor(self.wishes.asked.jobs) as pool:
            try:
                self.as_it_is(pool, has_parts=False)
                self.writes_out(pool)
                self.as_it_is(pool, has_parts=True)
            except BaseException:
                calls.ALL.end_all()
                raise
            finally:
                self.shown.clear()

    def as_it_is(self, pool, has_parts):
        """Leaves out lines, steps of storms, and parts if asked, until nothing more can go."""
        before = None
        while self.now.size() != before:
            before = self.now.size()
            self.fewer_lines(pool)
            while self.is_shorter(pool, self.now.shorter()):
                pass
            while has_parts and self.is_shorter(pool, fewer_parts(self.now)):
                pass

    def fewer_lines(self, pool):
        """Leaves out lines, in parts that are halved."""
        size = max(len(self.now.lines) // 2, 1)
        while True:
            now = self.now
            starts = range(0, len(now.lines), size)
            if not self.is_shorter(pool, (now.without(start, size) for start in starts)):
                if size == 1:
                    return
                size //= 2

    def writes_out(self, pool):
        """Writes out storms and `free` lines, where there are any and it can be done."""
        if not any(line.split()[0] in schedules.WRITTEN for line in self.now.lines):
            return
        try:
            asked = self.wishes.program
            data = self.now.text().encode("latin-1")
            journal = journals.parsed("the run", journals.played("the run", data, asked), asked)
            text = schedules.written_out(journal, asked, mark="")
        except (schedules.Unplayed, journals.BadJournal) as fault:
            self.shown.clear()
            print(f"survey: nothing is written out: {fault}", file=sys.stderr)
            return
        self.is_shorter(pool, [parted(text)])


def fewer_parts(now):
    """The scenarios with a group, a client, a node or a request less."""
    for one in survey_parts.Parts(now.head, now.lines).fewer():
        yield Schedule(*one.texts())


# ---- a survey


def found_run(wishes, text, asked):
    """The first run with what is wished: its number and its scenario."""
    plan = survey_runs.Plan(text, [""], asked.seconds, False)
    numbers = range(asked.first, asked.first + asked.count)
    shown = progress.Progress("survey", asked.count, "runs looked at")
    with concurrent.futures.ThreadPoolExecutor(asked.jobs) as pool:
        try:
            for start in range(0, len(numbers), asked.jobs):
                some = numbers[start : start + asked.jobs]
                sources = [survey_runs.source(plan, number, "") for number in some]
                wishes.runs += len(some)
                for number, source, holds in zip(some, sources, pool.map(wishes.holds, sources)):
                    if holds:
                        shown.clear()
                        return number, source
                    shown.step()
        except BaseException:
            shown.clear()
            calls.ALL.end_all()
            said = "looked at, and none has what is wished"
            print(f"survey: {shown.done} of {asked.count} runs {said}", file=sys.stderr)
            raise
    raise Refused(f"none of {asked.count} runs has what is wished: {' and '.join(asked.shrink)}")


def shrink(program, file, text, asked):
    """Finds a run, and makes its scenario short: the text, and whether nothing more can go."""
    wishes, is_whole = Wishes(program, asked, text), True
    number, source = found_run(wishes, text, asked)
    shrinking = Shrinking(wishes, source)
    try:
        shrinking.all()
    except ending.Stopped:
        is_whole = False
    now = shrinking.now
    more = "" if is_whole else "; stopped, so more may be left out"
    said = f"{left(now, shrinking.whole)}, after {wishes.runs} runs{more}"
    told = [f"# {file}, run {number}, with: {' and '.join(asked.shrink)}", f"# {said}"]
    head = now.head[:1] + told + now.head[1:]
    print(f"survey: {said}", file=sys.stderr)
    return Schedule(head, now.lines).text(), is_whole
