"""One child process of the program, over two pipes that never block the event loop."""

import os
import select
import subprocess

PIECE = 1 << 18  # bytes of one read
# What the program ends with where it has no such subcommand, or the scenario is none: to begin again is of no use.
NEVER_GOOD = (2, 3)
MOST_WAITING = 256 << 20  # bytes that a child has not read yet
SHORT = 2  # milliseconds that the loop waits for answers, which come sooner than another turn of it
FEW = 1000  # lines to which the answers come soon


class Stopped(Exception):
    """Why a carrier ends before it is told to, and whether it may begin again."""

    def __init__(self, why, is_final=False):
        super().__init__(why)
        self.is_final = is_final


def over(name, status, said):
    """The end of a child: what it printed that nobody asked for says more."""
    said = f": {said[:200].decode('latin-1')}" if said else ""
    return Stopped(f"the program of {name} ended with status {status}{said}", status in NEVER_GOOD)


class Child:
    """A process that answers each line with one line.

    What it prints goes to `on_lines` as a list of lines without their line feeds; where it ends,
    `on_end` gets its status. Lines that are fed in one turn of the loop are written at once.
    """

    def __init__(self, loop, words, on_lines, on_end):
        self.loop, self.on_lines, self.on_end = loop, on_lines, on_end
        # a session of its own, so that ctrl-C of a terminal ends the carrier alone, which ends this
        self.process = subprocess.Popen(
            words, stdin=subprocess.PIPE, stdout=subprocess.PIPE, bufsize=0, start_new_session=True
        )
        self.to, self.out = self.process.stdin.fileno(), self.process.stdout.fileno()
        for one in (self.to, self.out):
            os.set_blocking(one, False)
        self.fed, self.left, self.rest = [], b"", b""
        self.is_due, self.is_open = False, True
        self.owed, self.is_exchanging = 0, False  # answers that have not come
        self.poll = select.poll()
        self.poll.register(self.out, select.POLLIN)
        loop.add_reader(self.out, self.read)

    def feed(self, line, count=1):
        """Gives lines, each with its line feed."""
        self.fed.append(line)
        self.owed += count
        if not self.is_due and not self.is_exchanging:
            self.is_due = True
            self.loop.call_soon(self.exchange)

    def exchange(self):
        """Writes lines, and takes the answers to few of them at once, and those to what these lead to."""
        self.write()
        self.is_exchanging = True
        while self.is_open and 0 < self.owed < FEW and not self.left and self.poll.poll(SHORT):
            self.read()
            if self.fed:
                self.write()
        self.is_exchanging = False

    def feed_now(self, line, count=1):
        """Gives lines at once, where no other waits."""
        self.fed.append(line)
        self.owed += count
        if not self.is_due:
            self.write()

    def write(self):
        """Writes what the pipe takes, and waits for it where it takes no more."""
        self.is_due = False
        if not self.is_open:
            return
        self.loop.remove_writer(self.to)
        left = self.left + b"".join(self.fed)
        self.fed.clear()
        try:
            done = os.write(self.to, left) if left else 0
        except BlockingIOError:
            done = 0
        except OSError:  # it ended, which `read` sees
            self.left = b""
            return
        self.left = left[done:]
        if self.left:
            self.is_due = True
            self.loop.add_writer(self.to, self.write)

    def is_full(self):
        """Whether it lags so far behind that no more should be fed."""
        return len(self.left) > MOST_WAITING

    def read(self):
        """Takes what was printed."""
        try:
            piece = os.read(self.out, PIECE)
        except BlockingIOError:
            return
        except OSError:
            piece = b""
        if not piece:
            self.ended()
            return
        lines = piece.split(b"\n")
        lines[0] = self.rest + lines[0]
        self.rest = lines.pop()
        self.owed -= len(lines)
        if lines:
            self.on_lines(lines)

    def ended(self):
        """The child closed its output: it is over."""
        if self.is_open:
            self.close()
            self.on_end(self.process.wait())

    def close(self):
        """Closes both pipes. A child whose input is at its end ends by itself."""
        if not self.is_open:
            return
        self.is_open = False
        self.loop.remove_reader(self.out)
        self.loop.remove_writer(self.to)
        self.process.stdin.close()
        self.process.stdout.close()

    def stop(self):
        """Ends the child, and waits for that."""
        self.close()
        try:
            self.process.wait(5)
        except subprocess.TimeoutExpired:
            self.process.kill()
            self.process.wait()
