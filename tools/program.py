"""Finds the program that a tool asks: the one that was named, or the one that ./scatter calls.

That is the proved program where it is built, and else the same code unproved, which is compiled
where it is not kept yet; the script says so on standard error.
"""

import functools
import os
import shlex
import subprocess
import sys

HERE = os.path.dirname(os.path.dirname(os.path.abspath(__file__)))
SCRIPT = os.path.join(HERE, "scatter")
NO_PROGRAM = 2  # the status of a tool that has no program to ask


@functools.lru_cache(maxsize=None)
def of_script():
    """The path of the program that ./scatter calls. Ends where there is none; the script says why."""
    found = subprocess.run(
        [SCRIPT, "built", "--any"],
        stdin=subprocess.DEVNULL,
        stdout=subprocess.PIPE,
        text=True,
        check=False,
    )
    if found.returncode:
        sys.exit(NO_PROGRAM)
    return found.stdout.strip()


def answering(named=None):
    """The path of the program that was named, or else of the one that ./scatter calls."""
    os.environ.pop("ASAN_OPTIONS", None)  # the unproved program has its own
    if named in (None, SCRIPT):
        return of_script()
    path = os.path.abspath(named)
    if not os.access(path, os.X_OK) or os.path.isdir(path):
        print(f"{named}: there is no program of that name", file=sys.stderr)
        sys.exit(NO_PROGRAM)
    return path


class Unplayed(Exception):
    """Why a program gives no answer."""


def run(path, word, given, seconds=60):
    """Status and output of a program's subcommand."""
    try:
        ran = subprocess.run(
            [path, word],
            input=given,
            stdout=subprocess.PIPE,
            stderr=subprocess.DEVNULL,
            timeout=seconds,
            check=False,
        )
    except subprocess.TimeoutExpired:
        raise Unplayed(f"a run took more than {seconds} seconds") from None
    except OSError as fault:
        raise Unplayed(f"{path}: {fault.strerror}") from None
    return ran.returncode, ran.stdout


def command(named, *words):
    """The words of a command: those that were named, or that program's with these behind it."""
    if named:
        return shlex.split(named) if isinstance(named, str) else named
    return [answering(), *words]
