"""Widens a random scenario to the whole grammar: conditional writes, `free` lines, and loose texts.

What is drawn here comes of dice of its own.
"""

import random

VALUES = ["v", "w", "x", "yy"]
COMMENTS = ["# a comment", "#", "#\tx y"]


def conditional(dice, line):
    """Gives a request, or a conditional write in its place."""
    words = line.split(" ")
    if words[0] != "put" or dice.random() < 0.5:
        return line
    if dice.random() < 0.5:
        return f"add {words[1]} {words[2]}"
    return f"cas {words[1]} {dice.choice(VALUES)} {words[2]}"


def freed(dice, line, workers):
    """Gives a line of the schedule, or a `free` line in place of a `settle` line."""
    words = line.split(" ")
    if words[0] != "settle" or dice.random() < 0.6:
        return line
    return f"free {words[1]} {dice.randint(1, workers)}"


def loosened(dice, line):
    """Gives a line with other blanks, which are read as one."""
    if dice.random() < 0.8:
        return line
    blank = dice.choice(["  ", "\t", " \t "])
    start, end = (dice.choice(["", "", " ", "\t"]) for _ in range(2))
    return start + line.replace(" ", blank) + end


def loose_text(dice, lines):
    """Puts comments, empty lines, blanks, carriage returns, and no last line feed into some."""
    found = [lines[0]]
    for line in lines[1:]:
        if dice.random() < 0.1:
            found.append(dice.choice([*COMMENTS, "", "  "]))
        found.append(loosened(dice, line))
    end = dice.choice(["\n", "\r\n"])
    return end.join(found) + dice.choice([end, ""])


def text(seed, lines, workers):
    """Makes the text of a scenario's lines, widened in many scenarios."""
    dice = random.Random(f"widened/{seed}")
    if dice.random() < 0.5:
        lines = ["scatter 2", *(conditional(dice, line) for line in lines[1:])]
    if dice.random() < 0.3:
        lines = [freed(dice, line, workers) for line in lines]
    if dice.random() < 0.1:
        return loose_text(dice, lines)
    return "\n".join(lines) + "\n"
