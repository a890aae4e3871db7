"""Calls of a command for the page of tools/edit, each with limits of time, files and memory.

A call ends with its time, when it is stopped, when who asked for it is gone, when it takes too much
memory, and when this process ends, however that comes about (`setpriv --pdeathsig`, where there is
one). What a command begins ends with it.
"""

import contextlib
import os
import select
import signal
import subprocess
import threading
import time

MOST_OUTPUT = 268_435_456  # bytes of a stored journal that an audit takes
BUSY, GONE, NO_ANSWER = 409, 410, 503  # statuses of HTTP
LOOK = 0.1  # seconds between two looks at memory and at who asked
PAGE_SIZE = os.sysconf("SC_PAGE_SIZE")
STOPPED = "it was stopped"

# No core files; a limit on files, since a journal may grow to a gigabyte (`-f` counts in 512 bytes);
# a limit on processor seconds, for what a command that was killed has begun.
LIMITED = """ulimit -c 0; ulimit -f {files}; ulimit -t {seconds}
if command -v setpriv >/dev/null 2>&1; then exec setpriv --pdeathsig KILL -- "$@"; fi
exec "$@"
"""


class Refused(Exception):
    """Why there is no answer: a status of HTTP, and what the page shows."""

    def __init__(self, status, said):
        super().__init__(said)
        self.status, self.said = status, said


class Asker:
    """Who asked: a connection that may be closed, and the name of the page that has it."""

    def __init__(self, connection=None, page=""):
        self.connection, self.page = connection, page
        self.is_dropped = False  # nothing more is done for it

    def is_gone(self):
        """Whether the other end was closed."""
        if self.connection is None:
            return False
        try:
            ready, _, _ = select.select([self.connection], [], [], 0)
            return bool(ready) and not self.connection.recv(1, 2)  # 2: what is read stays there
        except (OSError, ValueError):
            return True


class Call:
    """One command that runs."""

    def __init__(self, process, asker, number):
        self.process, self.asker, self.number = process, asker, number
        self.is_stopped = False

    def kill(self):
        """Ends it with all that it began."""
        if self.process.returncode is None:
            with contextlib.suppress(ProcessLookupError):
                os.killpg(self.process.pid, signal.SIGKILL)

    def memory(self):
        """Bytes of memory that it has now."""
        try:
            with open(f"/proc/{self.process.pid}/statm", encoding="ascii") as file:
                return int(file.read().split()[1]) * PAGE_SIZE
        except (OSError, ValueError, IndexError):
            return 0


def half_of_memory():
    """Half of this machine's memory, and at most 8 GiB."""
    return min(os.sysconf("SC_PHYS_PAGES") * PAGE_SIZE // 2, 2**33)


class Calls:
    """All calls, and which of them go on."""

    def __init__(self, folder, memory=0):
        self.folder, self.memory = folder, memory or half_of_memory()
        self.guard, self.now = threading.Lock(), []

    def run(self, words, given, out, seconds, asker, number=0):
        """Runs a command on a file into a file for so many seconds at most; its status."""
        call = self.begin(words, given, out, seconds, asker, number)
        if asker.is_dropped:  # maybe before this call was known, which would have been ended then
            call.is_stopped = True
            call.kill()
        try:
            self.wait(call, time.monotonic() + seconds, seconds)
        finally:
            call.kill()
            call.process.wait()
            with self.guard:
                self.now.remove(call)
        if call.is_stopped:
            raise Refused(GONE, STOPPED)
        return whole(call.process.returncode)

    def begin(self, words, given, out, seconds, asker, number):
        script = LIMITED.format(files=MOST_OUTPUT // 512 + 1, seconds=int(seconds) + 2)
        with open(given, "rb") as source, open(out, "wb") as target:
            process = subprocess.Popen(
                ["/bin/sh", "-c", script, "sh", *words],
                stdin=source,
                stdout=target,
                stderr=subprocess.DEVNULL,
                cwd=self.folder,
                start_new_session=True,
            )
        call = Call(process, asker, number)
        with self.guard:
            self.now.append(call)
        return call

    def wait(self, call, until, seconds):
        """Waits for its end; raises where something else ends it."""
        with end_of(call.process) as is_over:
            while not is_over(min(LOOK, max(0.0, until - time.monotonic()))):
                if call.is_stopped:
                    return
                if call.asker.is_gone():
                    raise Refused(GONE, "the page that asked is gone")
                if call.memory() > self.memory:
                    raise Refused(NO_ANSWER, f"stopped at {self.memory >> 20:,} MiB of memory")
                if time.monotonic() >= until:
                    raise Refused(NO_ANSWER, too_long(seconds, call.number))

    def stop(self, is_meant=lambda call: True):
        """Ends what goes on, or those calls that are meant."""
        with self.guard:
            meant = [call for call in self.now if is_meant(call)]
            for call in meant:
                call.is_stopped = True
        for call in meant:
            call.kill()


@contextlib.contextmanager
def end_of(process):
    """A function that waits so many seconds for the end of a process, and says whether it came."""
    if not hasattr(os, "pidfd_open"):  # before Python 3.9
        yield lambda seconds: ended(process, seconds)
        return
    handle = os.pidfd_open(process.pid)
    try:
        yield lambda seconds: bool(select.select([handle], [], [], seconds)[0])
    finally:
        os.close(handle)


def ended(process, seconds):
    try:
        process.wait(seconds)
    except subprocess.TimeoutExpired:
        return False
    return True


def too_long(seconds, run):
    if not run:
        return f"stopped after {seconds:g} seconds, the limit of a check"
    return (
        f"stopped after {seconds:g} seconds, the limit of this page; ./scatter run < FILE has none,"
        " and ./scatter edit --seconds N gives another one"
    )


def whole(status):
    """A status, unless a signal ended the command."""
    if status == -signal.SIGXFSZ:
        raise Refused(NO_ANSWER, f"the output has more than {MOST_OUTPUT:,} bytes")
    if status < 0:
        raise Refused(NO_ANSWER, f"the program stopped at a fault (signal {-status})")
    return status
