"""A journal as a log with vector clocks that ShiViz draws, for `export --shiviz`.

The first line is the regular expression by which ShiViz parses the log, and the second, which is
empty, would part several runs. Each row is an event of its actor, in two lines: the host with its
clock, and what happened. A clock counts an actor's rows: with each row its own count grows by one,
and with a mail it takes over what the row that sent it had, where that is more. Losses and repeats
are events of a host `network`, of which no other host learns.
"""

import json

import journals

PARSER = r"(?<host>\S*) (?<clock>{.*})\n(?<event>.*)"


def clocks(journal):
    """The clock of each row, by the rows' order."""
    now, found = {}, []
    for row in journal.rows:
        who = journals.doer(row)
        clock = dict(now.get(who, {}))
        mail = journal.mail(row.of) if row.event in ("Deliver", "Drop", "Again") else None
        if mail is not None:
            for host, count in found[mail.row - 1].items():
                clock[host] = max(count, clock.get(host, 0))
        clock[who] = now.get(who, {}).get(who, 0) + 1
        now[who] = clock
        found.append(clock)
    return found


def lines(journal):
    """The lines of the log."""
    yield PARSER
    yield ""
    for row, clock in zip(journal.rows, clocks(journal)):
        yield f"{journals.doer(row)} {json.dumps(clock)}"
        yield f"{row.number} {journals.event(journal, row)}"
