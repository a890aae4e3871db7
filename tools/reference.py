"""Finds the reference, the plain implementation in reference/, built by cargo where there is one.

A command may stand for it: one of another implementation, to which a subcommand is added. The
reference itself answers many texts in one process, since to start one costs more than to answer.
"""

import os
import select
import shlex
import shutil
import subprocess
import sys
import time

import calls

HERE = os.path.dirname(os.path.dirname(os.path.abspath(__file__)))
FOLDER = os.path.join(HERE, "reference")
SECONDS = 60  # how long an answer may take


def build():
    """Builds the reference, and returns its path, or None where that cannot be, and says why."""
    if shutil.which("cargo") is None:
        print("the reference is not built: there is no cargo on the PATH", file=sys.stderr)
        return None
    target = os.path.join(FOLDER, "target")
    build_it = ["cargo", "build", "--release", "--quiet", "--target-dir", target]
    cargo = subprocess.Popen(build_it, cwd=FOLDER, stdout=sys.stderr)
    try:
        status = cargo.wait(1)
    except subprocess.TimeoutExpired:
        print("cargo builds the reference, which takes a minute", file=sys.stderr, flush=True)
        status = cargo.wait()
    if status:
        print("the reference is not built: cargo build failed in reference/", file=sys.stderr)
        return None
    return os.path.join(target, "release", "reference")


def command(asked, *words):
    """Returns the command that was asked for, or the reference's. Ends where there is none."""
    if asked:
        return shlex.split(asked)
    program = build()
    if program is None:
        print("name the command of another implementation, or install cargo", file=sys.stderr)
        sys.exit(2)
    return [program, *words]


class Calls:
    """Starts a process for each subcommand and text."""

    def __init__(self, words):
        self.words = words

    def ask(self, word, text, seconds=SECONDS):
        """Returns status and output of a subcommand; None for the status of one that took too long."""
        return calls.call([*self.words, *word.split()], text, seconds)


class Batch:
    """Keeps one process of the reference, which answers many texts."""

    def __init__(self, program):
        self.program, self.process, self.held = program, None, b""

    def start(self):
        self.held = b""
        self.process = calls.ALL.begin([self.program, "batch"])

    def ask(self, word, text, seconds=SECONDS):
        """Returns status and output of a subcommand; None for the status of one that took too long."""
        if self.process is None:
            self.start()
        if self.process is None:
            return None, b""
        self.process.stdin.write(b"%s %d\n" % (word.encode(), len(text)) + text)
        self.process.stdin.flush()
        until = time.monotonic() + seconds
        try:
            while b"\n" not in self.held:
                self.more(until)
            head, self.held = self.held.split(b"\n", 1)
            status, length = map(int, head.split())
            while len(self.held) < length:
                self.more(until)
        except TimeoutError:
            self.end()
            return None, b""
        output, self.held = self.held[:length], self.held[length:]
        return status, output

    def more(self, until):
        """Reads what has come, or waits for it."""
        out = self.process.stdout.fileno()
        if not select.select([out], [], [], max(0.0, until - time.monotonic()))[0]:
            raise TimeoutError
        part = os.read(out, 2**20)
        if not part:
            raise EOFError("the reference ended")
        self.held += part

    def end(self):
        calls.ALL.end(self.process)
        self.process = None


def other(asked):
    """Returns the other implementation, to which subcommands are added, or the reference."""
    return Calls(shlex.split(asked)) if asked else Batch(command(None)[0])
