"""Inputs as lines of a file, and as lines that the program reads.

A line of a node's file is `t` (a tick), `o ORDER` or `m INPUT PLACE MAIL`: MAIL came as the mail at
PLACE of what its sender sent at its INPUT. A front's file has the same behind a client's number,
with `a OPERATION` for what a client is asked; its lines `h LINE` are the history. Inputs of an actor
are numbered from 1 in the order of its lines.
"""

TICK = b't\n'


def order(said):
    return b"o %s\n" % said


def fed(line):
    """What the program reads of a line of a file that has a line feed, without a client's number."""
    kind = line[:2]
    if kind == b"m ":
        return b'{"Got":%s}\n' % line.split(b" ", 3)[3][:-1]
    if kind == b"a ":
        return b'{"Ask":%s}\n' % line[2:-1]
    if kind == b"o ":
        return b'{"Told":%s}\n' % line[2:-1]
    if line == TICK:
        return b'"Tick"\n'
    raise ValueError(line)
