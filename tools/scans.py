"""Reads what `scatter scan` printed, and shows it as a table in dot's words.

It is for the tools beside it, which are not proved and say so.
"""

import html
import sys

MOST_PAIRS = 12  # of a part, in a picture


class BadScan(Exception):
    """A text that is no scan: the line, from 1, and why."""


class Part:
    """One part of the arc: its start, its length, its group, how many entries the group's log has, and its pairs."""

    def __init__(self, words):
        self.lo, self.len, self.group, self.slot = int(words[1]), int(words[2]), words[4], int(words[6])
        self.pairs = []


class Scan:
    """How many rows were used, and the parts in their order."""

    def __init__(self, text):
        self.rows, self.parts = 0, []
        lines = text.splitlines()
        if lines[:1] != ["scatter scan 1"]:
            raise BadScan("line 1: no scan of `scatter scan`")
        for number, line in enumerate(lines[1:], start=2):
            self.take(number, line.split(" "))

    def take(self, number, words):
        """One line more."""
        try:
            if words[0] == "rows":
                self.rows = int(words[1])
            elif words[0] == "part":
                self.parts.append(Part(words))
            elif words[0] == "pair":
                self.parts[-1].pairs.append((words[1], words[2]))
            elif words[0] not in ("page", "pairs"):
                raise BadScan(f"line {number}: unknown word")
        except (IndexError, ValueError):
            raise BadScan(f"line {number}: no line of a scan") from None


def read(name):
    """The scan in a file, or on standard input."""
    try:
        with sys.stdin if name == "-" else open(name, encoding="ascii", errors="replace") as file:
            return Scan(file.read())
    except OSError as fault:
        raise BadScan(f"{name}: {fault.strerror}") from None


def cell(part):
    """The pairs of a part, few of them."""
    lines = [html.escape(f"{key} = {value}") for key, value in part.pairs[:MOST_PAIRS]]
    if len(part.pairs) > MOST_PAIRS:
        lines.append(f"and {len(part.pairs) - MOST_PAIRS} more")
    return "<br/>".join(lines) or "nothing"


def table_of(scan, colours):
    """The map of a scan in dot's words: a row for each part."""
    names = sorted({part.group for part in scan.parts})
    rows = [f'<tr><td border="0" colspan="3">after {scan.rows} rows</td></tr>']
    for part in scan.parts:
        colour = colours[names.index(part.group) % len(colours)]
        rows.append(
            f'<tr><td border="0" align="left">from {part.lo}<br/>{part.len} positions</td>'
            f'<td bgcolor="{colour}">{html.escape(part.group)}<br/><font point-size="9">slot {part.slot}</font></td>'
            f'<td align="left">{cell(part)}</td></tr>'
        )
    table = '<table border="0" cellborder="1" cellspacing="0" cellpadding="4">' + "".join(rows) + "</table>"
    return f'digraph map {{ node [shape=plain, fontname="sans-serif"]; map [label=<{table}>]; }}\n'
