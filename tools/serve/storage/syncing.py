"""Syncs that many inputs share: those that come while one runs are of the next.

Where syncs are fast the loop makes them itself, since a thread that has to be waken takes longer; where
they are slow a thread of their own does, and the loop goes on meanwhile.
"""

import queue
import sys
import threading
import time

SOON = 0.02  # seconds that a line may wait for which nobody waits
FAST = 0.0005  # seconds of a sync, on average, that the loop waits for itself


class Syncing:
    """Numbers lines from 1 as they come, and says up to which number they are on stable storage.

    `on_synced(number)` is called in the loop. After a fault `on_fault(fault)` is, once, and nothing
    is written any more: what the file has is read anew by a process that begins again.
    """

    def __init__(self, loop, file, on_synced, on_fault):
        self.loop, self.file, self.on_synced, self.on_fault = loop, file, on_synced, on_fault
        self.lines, self.taken = [], 0
        self.is_due = self.is_busy = self.is_over = False
        self.later = None
        self.jobs = queue.SimpleQueue()
        self.count, self.syncs, self.average = 0, 0, FAST
        # who waits for the interpreter behind a sync is not to wait for 5 ms
        sys.setswitchinterval(0.0002)
        self.thread = threading.Thread(target=self.work, daemon=True)
        self.thread.start()

    def add(self, line, can_wait=False):
        """Takes a line with its line feed, and returns its number. One that can wait is synced with the next ones, or soon."""
        self.lines.append(line)
        self.count += 1
        if not can_wait:
            self.hurry()
        elif self.later is None:
            self.later = self.loop.call_later(SOON, self.hurry)
        return self.count

    def add_all(self, text, count, can_wait):
        """Takes whole lines at once, and returns the number of the first."""
        self.count += count - 1
        return self.add(text, can_wait) - count + 1

    def hurry(self):
        """Something waits for what was taken so far."""
        if not self.is_due:
            self.is_due = True
            if not self.is_busy:
                self.loop.call_soon(self.begin)

    def begin(self):
        if self.later is not None:
            self.later.cancel()
            self.later = None
        self.is_due = False
        if self.lines and not self.is_busy and not self.is_over:
            self.is_busy = True
            job, self.lines = (self.lines, self.count), []
            if self.average < FAST:
                self.append_now(job)
            else:
                self.jobs.put(job)

    def append_now(self, job):
        lines, upto = job
        try:
            self.append(lines)
        except OSError as fault:
            self.failed(fault)
            return
        self.done(upto)

    def append(self, lines):
        """Appends lines, and keeps how long that takes on average."""
        began = time.perf_counter()
        self.file.append(lines)
        self.average += (time.perf_counter() - began - self.average) / 8

    def work(self):
        while True:
            job = self.jobs.get()
            if job is None:
                return
            lines, upto = job
            try:
                self.append(lines)
            except OSError as fault:
                self.loop.call_soon_threadsafe(self.failed, fault)
                return
            self.loop.call_soon_threadsafe(self.done, upto)

    def done(self, upto):
        self.is_busy = False
        self.syncs += 1
        self.on_synced(upto)
        if self.is_due:
            self.loop.call_soon(self.begin)

    def failed(self, fault):
        self.is_over = True
        self.on_fault(fault)

    def close(self):
        """Ends the thread behind the sync that runs. What was not begun is dropped, as by a crash."""
        self.is_over = True
        self.jobs.put(None)
        self.thread.join()
