"""Checks what the files of a store say: one journal, audited; the history, linear; and a page of the rows."""

import os
import subprocess
import sys

from gather import files, journal, linear, read_off
from storage import file

TOOLS = os.path.dirname(os.path.dirname(os.path.dirname(os.path.abspath(__file__))))
BAD_WORDS = 2  # the status of a program that has no such subcommand
MOST_ROWS_OF_PAGE = 20_000


def say(text):
    print(text, flush=True)


def ask(program, words, given):
    """Status and output of a subcommand on a file."""
    with open(given, "rb") as source:
        done = subprocess.run([program, *words], stdin=source, stdout=subprocess.PIPE, check=False)
    return done.returncode, done.stdout.decode("latin-1").strip().replace("\n", ", ")


def audit(program, path):
    """Whether the rows are a lawful journal: all of them, or the longest beginning that an ordinary journal holds."""
    status, said = ask(program, ["audit", "rows"], path)
    if status != BAD_WORDS:
        say(f"audit: {said}")
        return status == 0
    ordinary = path + ".ordinary"
    try:
        why = read_off.beginning(path, ordinary)
    except read_off.Unlawful as fault:
        say(f"audit: unlawful: {fault}")
        return False
    status, said = ask(program, ["audit"], ordinary)
    whole = f", of the longest beginning with a schedule of 20,000 lines; behind it comes {why}" if why else ""
    say(f"audit: {said}{whole}")
    return status == 0


def is_linear(program, path):
    """Whether the history is linearizable, by the program or else by a search of this folder."""
    status, said = ask(program, ["linear"], path)
    if status != BAD_WORDS:
        say(f"history: {said}")
        return status == 0
    with open(path, encoding="ascii") as source:
        lines = source.read().splitlines()[1:]
    try:
        key = linear.first_bad_key(lines)
    except linear.Undecided as fault:
        say(f"history: undecided at key {fault}, by the search of tools/serve")
        return False
    say("history: " + (f"not linearizable at key {key}" if key else "linearizable") + ", by the search of tools/serve")
    return key is None


def page(program, path, made, rows):
    """Makes the page of the rows, where there are not too many to look at."""
    if rows > MOST_ROWS_OF_PAGE:
        say(f"page: none, since it would have {rows} rows, and {MOST_ROWS_OF_PAGE} at most are of use")
        return
    words = [sys.executable, "-B", os.path.join(TOOLS, "page"), path, made, "--by", program]
    done = subprocess.run(words, stdin=subprocess.DEVNULL, stderr=subprocess.PIPE, check=False)
    why = done.stderr.decode("utf-8", "replace").strip().split("\n")[-1]
    say(f"page: {made}" if done.returncode == 0 else f"page: none: {why}")


def main(folder, program):
    """Checks the files of a folder. The status is 0 where both checks say yes, and else 1."""
    out = os.path.join(folder, "check")
    os.makedirs(out, exist_ok=True)
    rows, history = os.path.join(out, "journal"), os.path.join(out, "history")
    try:
        with open(rows, "wb") as target, open(history, "wb") as told:
            made = journal.gather(folder, program, target, told)
    except (files.BadFiles, file.BadFile) as fault:
        say(f"gather: {fault}")
        return 1
    say(f"gathered: {made.rows} rows of {made.actors} nodes and clients, in {rows}")
    if made.left_out:
        say(f"gathered: {made.left_out} more rows do not fit into a journal, so the longest beginning that fits is audited")
    good = [audit(program, rows), is_linear(program, history)]
    page(program, rows, os.path.join(out, "page.html"), made.rows)
    return 0 if all(good) else 1
