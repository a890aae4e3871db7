"""Calls programs with a text as their input, from several threads, so that all can be ended.

Each call is a process group of its own, which ends with what it started: after its time, and where
the tool is stopped.
"""

import contextlib
import os
import signal
import subprocess
import threading


class Calls:
    """All that goes on."""

    def __init__(self):
        self.guard, self.running, self.is_ended = threading.Lock(), set(), False

    def begin(self, words):
        """A process that takes and gives bytes; nothing where all is to end."""
        with self.guard:
            if self.is_ended:
                return None
            pipe = subprocess.PIPE
            how = {"stdin": pipe, "stdout": pipe, "stderr": subprocess.DEVNULL}
            one = subprocess.Popen(words, start_new_session=True, **how)
            self.running.add(one)
            return one

    def end(self, one):
        """Ends a process with all that it started, and waits for it."""
        with self.guard:
            self.running.discard(one)
        with contextlib.suppress(ProcessLookupError):
            os.killpg(one.pid, signal.SIGKILL)
        for stream in (one.stdin, one.stdout):
            with contextlib.suppress(OSError):
                stream.close()
        one.wait()

    def end_all(self):
        """Ends all that goes on, and lets nothing begin any more."""
        with self.guard:
            self.is_ended = True
            running = list(self.running)
        for one in running:
            with contextlib.suppress(ProcessLookupError):
                os.killpg(one.pid, signal.SIGKILL)


ALL = Calls()


def call(words, given, seconds):
    """Status and output of a command. The status is None where it took too long or was ended."""
    one = ALL.begin(words)
    if one is None:
        return None, b""
    try:
        output = one.communicate(given, seconds)[0]
    except subprocess.TimeoutExpired:
        return None, b""
    finally:
        ALL.end(one)
    return one.returncode, output
