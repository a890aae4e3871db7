"""Ends a tool as a command should end: stopped by a signal, at a closed pipe, or at a full disk.

A tool calls `run` with its name and its `main`. While it still loads its parts, ctrl and C end it
without a word.
"""

import os
import signal
import sys

NOTHING_WRITTEN = 2
CLOSED = 1  # the status where nobody reads on

if signal.getsignal(signal.SIGINT) is signal.default_int_handler:
    signal.signal(signal.SIGINT, signal.SIG_DFL)


class Stopped(Exception):
    """Says that a tool was asked to stop, and by which signal."""

    def __init__(self, number):
        super().__init__()
        self.number = number


def stop(number, _):
    """Stops the tool once: a second signal of the same kind ends it at once."""
    signal.signal(number, signal.SIG_DFL)
    raise Stopped(number)


def catch_signals():
    """Lets ctrl and C, and the signal TERM, raise `Stopped`, unless the caller ignores them."""
    for number in (signal.SIGINT, signal.SIGTERM):
        if signal.getsignal(number) != signal.SIG_IGN:
            signal.signal(number, stop)


def leave_output():
    """Writes no more, so that what is still to be written cannot fail once more."""
    os.dup2(os.open(os.devnull, os.O_WRONLY), sys.stdout.fileno())


def status_of(tool, main):
    """Calls `main`: its status, or that of how it was ended."""
    try:
        status = main()
        sys.stdout.flush()
        return status
    except Stopped as stopped:
        return 128 + stopped.number
    except BrokenPipeError:
        leave_output()
        return CLOSED
    except OSError as fault:
        if not fault.filename:
            leave_output()
        print(f"{tool}: {fault.filename or 'standard output'}: {fault.strerror}", file=sys.stderr)
        return NOTHING_WRITTEN


def run(tool, main):
    """Calls `main`, and ends this process with its status."""
    catch_signals()
    status = status_of(tool, main)
    try:
        sys.stdout.flush()
    except OSError:  # what was left of an output that had failed
        leave_output()
    sys.exit(status)
