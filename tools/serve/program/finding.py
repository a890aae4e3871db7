"""Which program is asked: the one that is named, or the one that ./scatter calls."""

import os
import subprocess

SCRIPT = os.path.join(os.path.dirname(os.path.abspath(__file__)), "..", "..", "..", "scatter")

NO_SCENARIO = 3  # the status of a node without lines of a scenario


class NoProgram(Exception):
    """Why there is no program to ask."""


def named(path):
    """A program that is named."""
    if not os.access(path, os.X_OK) or os.path.isdir(path):
        raise NoProgram(f"{path}: there is no such program")
    return os.path.abspath(path)


def of_script():
    """The proved program where it is built, and else the same code unproved; the script says which."""
    found = subprocess.run(
        [SCRIPT, "built", "--any"], stdin=subprocess.DEVNULL, stdout=subprocess.PIPE, check=False
    )
    if found.returncode:
        raise NoProgram("there is no program: ./scatter build builds it, and another one can be named")
    return os.fsdecode(found.stdout).strip()


def answering(path):
    """The program that is named, or else the script's."""
    os.environ.pop("ASAN_OPTIONS", None)  # the unproved program has its own
    return named(path) if path else of_script()


def has_streams(program):
    """Whether a program has the subcommands of nodes and clients."""
    done = subprocess.run(
        [program, "node", "1"], stdin=subprocess.DEVNULL, stdout=subprocess.DEVNULL, stderr=subprocess.DEVNULL, check=False
    )
    return done.returncode == NO_SCENARIO
