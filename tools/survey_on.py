"""Hands the runs of a survey to the workers of a dask.distributed scheduler, for `survey --on`.

Each worker needs Python with `distributed` and the program under the same path, or the one that
`--there` names; before each run it looks whether the program has the checksum of the one here. What
it needs of the tools is sent to it. A run whose worker is lost is tried again by the scheduler, at
another one; where no worker is left for a while, or the scheduler is gone, what was not run is
given back as that.
"""

import asyncio
import contextlib
import hashlib
import logging
import os
import sys
import time

import survey_runs
from survey_runs import Refused, played

LOOK = 0.05  # seconds between two looks at what has ended
ASK = 2.0  # seconds between two questions to the scheduler, who is there
# where no scheduler answers
GONE = (OSError, RuntimeError, TimeoutError, asyncio.TimeoutError, ValueError, KeyError)
TRIES = 3  # how often a run is handed out again where it went to another program


def checksum(path):
    """The SHA-256 of a file; nothing where it cannot be read."""
    try:
        with open(path, "rb") as file:
            return hashlib.sha256(file.read()).hexdigest()
    except OSError:
        return None


def checksum_there(worker, path):
    """The same, reckoned anew only where the file is another one than it was at the worker's last
    run: to read a program may take longer than to run it."""
    try:
        now = os.stat(path)
    except OSError:
        return None
    mark = (path, now.st_dev, now.st_ino, now.st_size, now.st_mtime_ns, now.st_ctime_ns)
    known = getattr(worker, "survey_program", None)
    if known is None or known[0] != mark:
        worker.survey_program = known = mark, checksum(path)
    return known[1]


def played_there(path, wanted, plan, number):
    """At a worker: its address, and what a run came to; nothing where it has another program."""
    import distributed

    worker = distributed.get_worker()
    if checksum_there(worker, path) != wanted:
        return worker.address, None
    return worker.address, played(path, survey_runs.Plan(*plan), number)


def is_over(future):
    """Whether nothing more comes of a run that was handed out, or could not be."""
    return future is None or future.done()


def say(text):
    print(f"survey: {text}", file=sys.stderr)


class Cluster:
    """A scheduler with its workers, that is there already."""

    def __init__(self, address, program, there, patience):
        try:
            import cloudpickle
            import dask
            import distributed
        except ImportError as fault:
            raise Refused(
                f"--on needs dask.distributed (Debian's python3-distributed, for /usr/bin/python3),"
                f" which {sys.executable} lacks: {fault}"
            ) from None
        for module in (survey_runs, sys.modules[__name__]):
            cloudpickle.register_pickle_by_value(module)
        # (what it says of lost workers is said here, in fewer words)
        for name in ("distributed", "distributed.client", "distributed.core"):
            logging.getLogger(name).setLevel(logging.CRITICAL)
        dask.config.set({"distributed.comm.timeouts.connect": "15s"})
        self.path, self.wanted, self.patience = there or program, checksum(program), patience
        self.allowed, self.lost = None, []
        try:
            self.client = distributed.Client(address, timeout=30, set_as_default=False)
        except GONE as fault:
            raise Refused(f"no scheduler answers at {address}: {fault}") from None
        self.check()

    def close(self):
        with contextlib.suppress(*GONE):
            self.client.close(timeout=2)

    def workers(self):
        """The addresses of all workers that are there; none where the scheduler is gone."""
        try:
            return set(self.client.scheduler_info()["workers"])
        except GONE:
            return set()

    def check(self):
        """Leaves out the workers with another program."""
        try:
            found = self.client.run(checksum, self.path)
        except GONE as fault:
            raise Refused(f"the scheduler's workers do not answer: {fault}") from None
        good = {address for address, said in found.items() if said == self.wanted}
        for address in sorted(set(found) - good):
            has = "no program" if found[address] is None else "another program"
            say(f"worker {address} has {has} at {self.path}, and gets no runs")
        if not good:
            raise Refused(f"no worker of the scheduler has this program at {self.path}")
        if len(good) < len(found):
            self.allowed = good

    def hand_out(self, plan, number):
        """What becomes of a run; nothing where the scheduler is gone."""
        where = sorted(self.allowed) if self.allowed is not None else None
        # (a plain tuple, since a worker cannot load a class of this file's neighbours by its name)
        words = (self.path, self.wanted, tuple(plan), number)
        try:
            return self.client.submit(played_there, *words, pure=False, workers=where)
        except GONE:
            return None
        except Exception:  # pylint: disable=broad-except # a closed client raises no other one
            if self.is_closed():
                return None
            raise

    def refuse(self, address):
        """Leaves out one more worker, that came later or whose program was replaced."""
        say(f"worker {address} has another program at {self.path}, and gets no more runs")
        self.allowed = (self.workers() if self.allowed is None else self.allowed) - {address}

    def result(self, number, future):
        """The address and what a run came to; nothing where workers or the scheduler are lost."""
        if future is None:
            return None
        if future.status == "finished":
            try:
                return future.result(timeout=30)
            except GONE:
                return None  # the worker went with it
        if future.status == "error":
            fault = future.exception()
            if type(fault).__name__ != "KilledWorker":
                raise Refused(f"run {number}: {fault}")
        return None

    def left_alone(self, since):
        """Since when there has been no worker to do anything."""
        there = self.workers()
        if there if self.allowed is None else there & self.allowed:
            return None
        return time.monotonic() if since is None else since

    def is_there(self, alone):
        """Whether a worker may still answer: the client closes itself without a scheduler."""
        is_alone = alone is not None and time.monotonic() - alone >= self.patience
        return not is_alone and not self.is_closed()

    def is_closed(self):
        """Whether the client has closed itself, as it does where the scheduler is gone for long."""
        return self.client.status in ("closing", "closed")

    def runs(self, plan, numbers):
        """All runs, each as soon as it has ended: the number, and what it came to. Those that were
        not run are in `lost` afterwards."""
        self.lost, tries = [], dict.fromkeys(numbers, TRIES)
        waiting = {number: self.hand_out(plan, number) for number in numbers}
        asked, alone = time.monotonic(), None
        try:
            while waiting and self.is_there(alone):
                for number in [one for one, future in waiting.items() if is_over(future)]:
                    ended = self.result(number, waiting.pop(number))
                    if ended and ended[1]:
                        yield number, ended[1]
                    elif ended and tries[number]:
                        tries[number] -= 1
                        if self.allowed is None or ended[0] in self.allowed:
                            self.refuse(ended[0])
                        waiting[number] = self.hand_out(plan, number)
                    else:
                        self.lost.append(number)
                if time.monotonic() - asked > ASK:
                    asked, alone = time.monotonic(), self.left_alone(alone)
                time.sleep(LOOK)
        finally:
            self.lost += waiting
            if waiting and self.client.status == "running":
                with contextlib.suppress(*GONE):
                    self.client.cancel([future for future in waiting.values() if future])
