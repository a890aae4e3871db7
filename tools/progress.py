"""Says on standard error how far many runs are: a bar on a terminal, and else plain lines.

Both have how many runs a second there are, and how long the rest takes at that rate. A plain line
comes at the beginning, each half minute, and at the end, so a stored log stays short.
"""

import shutil
import sys
import time

WIDE = 20  # columns of a bar, where there is room
BETWEEN = 0.1  # seconds between two bars, since a terminal may be slow
PLAIN = 30.0  # seconds between two plain lines


def lasting(seconds):
    """A time in a few words."""
    whole = round(seconds)
    if whole < 60:
        return f"{whole} s"
    if whole < 3600:
        return f"{whole // 60} min {whole % 60} s"
    return f"{whole // 3600} h {whole % 3600 // 60} min"


def rate(done, seconds):
    """How many a second, with as many digits as say something."""
    each = done / max(seconds, 0.001)
    return f"{each:.0f} a second" if each >= 10 else f"{each:.2g} a second"


class Progress:
    """A number of runs of a tool, of which some have ended."""

    def __init__(self, tool, count, what="runs", out=None, clock=time.monotonic):
        self.tool, self.count, self.what = tool, count, what
        self.out, self.clock = out or sys.stderr, clock
        self.done, self.began = 0, clock()
        self.said, self.is_shown = self.began, False
        self.is_terminal = self.out.isatty()
        if count:
            self.show("")

    def words(self):
        """How far they are."""
        passed = self.clock() - self.began
        start = f"{self.done} of {self.count} {self.what}"
        if self.done == self.count:
            return f"{start} in {lasting(passed)}, {rate(self.done, passed)}"
        if self.done == 0:
            return start
        left = passed / self.done * (self.count - self.done)
        return f"{start}, {rate(self.done, passed)}, {lasting(left)} left"

    def step(self, more=""):
        """One run has ended; `more` is said behind it."""
        self.done += 1
        now, is_last = self.clock(), self.done == self.count
        if not is_last and now - self.said < (BETWEEN if self.is_terminal else PLAIN):
            return
        self.said = now
        self.show(f", {more}" if more else "", "\n" if is_last else "")

    def show(self, more, end=""):
        """Draws the bar, or prints a plain line."""
        if self.is_terminal:
            self.draw(self.words() + more, end)
        else:
            self.write(f"{self.tool}: {self.words()}{more}\n")

    def draw(self, words, end):
        columns = shutil.get_terminal_size().columns
        wide = max(4, min(WIDE, columns - len(words) - 4))
        full = wide * self.done // self.count
        line = f"[{'#' * full}{'.' * (wide - full)}] {words}"
        # (a line that is cut stays one line, and the next bar stands where it stood)
        cut = line[: columns - 1]
        self.is_shown = not end
        self.write(f"\r\033[K{cut}{end}")

    def clear(self):
        """Takes the bar away, so that something else can be printed."""
        if self.is_shown:
            self.is_shown = False
            self.write("\r\033[K")

    def write(self, text):
        self.out.write(text)
        self.out.flush()
