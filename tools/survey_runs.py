"""What `survey` runs: a scenario with other storms, as it stands and with what is appended to it.

`played` runs one of them. It takes and gives plain values, and needs nothing of the tools beside
it, so that a worker on another machine can be handed it as it is (`survey_on.py`).
"""

import collections
import contextlib
import json
import multiprocessing
import multiprocessing.connection
import os
import re
import signal
import subprocess

SPREAD = 100000  # between the storms of one run and those of the next
STORM = re.compile(r"^([ \t]*storm[ \t]+)\d+([ \t]+\d+[ \t\r]*)$", re.MULTILINE)
NODES = 32  # actors above are clients

# What is the same in all runs of a scenario: its text, what is appended to it, one run for each of
# these; how long a run may take; and whether the rows of requests are counted in the first of them.
Plan = collections.namedtuple("Plan", "text tails seconds is_timed")


class Refused(Exception):
    """Why nothing is surveyed."""


# ---- one run


def seeded(text, number):
    """The scenario of a run: each storm has a number of its own."""
    place = 0

    def other(found):
        nonlocal place
        place += 1
        return f"{found[1]}{number * SPREAD + place}{found[2]}"

    return STORM.sub(other, text)


def source(plan, number, tail):
    """A run's scenario with something behind it."""
    text = seeded(plan.text, number)
    end = "\n" if tail and not text.endswith("\n") else ""
    return text + end + tail


def run(program, word, text, seconds):
    """Status and output of the program; None is the status of a run that took too long."""
    try:
        ended = subprocess.run(
            [program, word],
            input=text.encode("latin-1"),
            stdout=subprocess.PIPE,
            stderr=subprocess.DEVNULL,
            timeout=seconds,
            check=False,
        )
        return ended.returncode, ended.stdout.decode("latin-1")
    except subprocess.TimeoutExpired:
        return None, ""


def taken(journal):
    """The rows between issue and answer of each answered request of a stored journal's text."""
    asked, found, mails = {}, [], []
    lines = journal.partition("\njournal\n")[2].splitlines()
    for number, line in enumerate(lines, 1):
        row = json.loads(line)
        who, event = row["who"], row["event"]
        got = event.get("Deliver") if isinstance(event, dict) and who > NODES else None
        mail = mails[got - 1].get("Answer") if got else None
        if mail and "Value" in mail["answer"]:
            issued = asked.pop((who, mail["seq"]), None)
            if issued is not None:
                found.append(number - issued)
        for sent in row["sent"]:
            mails.append(sent["body"])
            if "Request" in sent["body"]:
                asked.setdefault((who, sent["body"]["Request"]["seq"]), number)
    return found


def played(program, plan, number):
    """Status and report of a run for each of its tails, and the rows that its requests took."""
    ends = [run(program, "run", source(plan, number, tail), plan.seconds) for tail in plan.tails]
    took = []
    if plan.is_timed and ends[0][0] in (0, 6):
        journal = run(program, "journal", source(plan, number, plan.tails[0]), plan.seconds)[1]
        try:
            took = taken(journal)
        except (ValueError, KeyError, TypeError, AttributeError, IndexError) as fault:
            raise Refused(f"run {number}: its journal cannot be read: {fault!r}") from None
    return ends, took


# ---- what a run came to


class Outcome:
    """What one run came to: its status, and what its report says."""

    def __init__(self, number, status, report, took=()):
        self.number, self.status, self.took = number, status, took
        self.requests, self.orders, self.counts = {}, {}, {}
        for line in report.split("\n"):
            words = line.split(" ")
            if words[0] in ("reply", "unanswered", "unsent"):
                word = "answered" if words[0] == "reply" else words[0]
                self.requests[f"c{words[1]} {words[2]} {words[3]}"] = word
            elif words[0] == "order":
                self.orders[int(words[1])] = " ".join([words[2], *words[4:]])
            elif words[0] in ("rows", "mail", "delivered"):
                self.counts[words[0]] = int(words[1])
        self.answered = sum(word == "answered" for word in self.requests.values())
        self.open = sum(word == "open" for word in self.orders.values())

    def share(self):
        return self.answered / len(self.requests) if self.requests else 1.0

    def has_failed(self):
        """Whether it came to no report."""
        return self.status not in (0, 6)

    def is_well(self):
        """Whether all requests are answered, and no order is open."""
        return not self.has_failed() and self.answered == len(self.requests) and not self.open

    def rank(self):
        """The worst runs have the least."""
        return self.answered, -self.open, -self.counts.get("rows", 0), self.number


def outcomes_of(number, ends, took):
    """The outcomes of one run, for each of its tails."""
    times = [took] + [()] * (len(ends) - 1)
    return [Outcome(number, *end, time) for end, time in zip(ends, times)]


# ---- all runs on this machine


def work(end, parent, program, plan):
    """Runs each number that comes, in a process group of its own, as long as somebody waits."""
    os.setsid()  # so that ctrl-C does not end it, and that it ends with what it runs
    signal.signal(signal.SIGTERM, signal.SIG_DFL)
    while True:
        while not end.poll(1):
            if os.getppid() != parent:
                return
        number = end.recv()
        try:
            end.send((number, played(program, plan, number), None))
        except Refused as fault:
            end.send((number, None, fault))


class Worker:
    """A process that runs one number after another."""

    def __init__(self, program, plan):
        self.end, other = multiprocessing.Pipe()
        words = (other, os.getpid(), program, plan)
        self.process = multiprocessing.Process(target=work, args=words, daemon=True)
        self.process.start()
        other.close()

    def ended(self):
        """The number that it has run, and what that came to."""
        try:
            number, found, fault = self.end.recv()
        except EOFError:
            raise Refused("a worker was ended from elsewhere") from None
        if fault:
            raise fault
        return number, found

    def stop(self):
        """Ends it with what it runs."""
        with contextlib.suppress(ProcessLookupError, PermissionError):
            os.killpg(self.process.pid, signal.SIGKILL)
        self.process.kill()
        self.process.join()


def here(program, plan, numbers, jobs):
    """All runs, each as soon as it has ended: the number, and what it came to. Where not all are
    taken, those that go on are ended."""
    numbers = collections.deque(numbers)
    workers = {}
    try:
        for _ in range(min(jobs, len(numbers))):
            worker = Worker(program, plan)
            workers[worker.end] = worker
            worker.end.send(numbers.popleft())
        while workers:
            for end in multiprocessing.connection.wait(list(workers)):
                yield workers[end].ended()
                if numbers:
                    end.send(numbers.popleft())
                else:
                    workers.pop(end).stop()
    finally:
        for worker in workers.values():
            worker.stop()
