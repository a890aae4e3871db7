"""Lines that free a request or an order that waits, found by running them, for `why` and `page`."""

import journals
import schedules
from limits import PATIENCE

SETTLE = "settle 10000"
MOST_TICKS = PATIENCE + 1  # one more than those behind which a transaction is given up
MOST_PAIRED = 6  # nodes of which all pairs are tried


def answered(client, seq):
    """Whether a report has the reply to a request."""
    start = f"reply {client} {seq} "
    return lambda report: any(line.startswith(start) for line in report)


def told_of(number):
    """What an order came to by a report, as `committed`; nothing where it is open."""
    start = f"order {number} "

    def end(report):
        lines = [line[len(start) :] for line in report if line.startswith(start)]
        return lines[0] if lines and lines[0] != "open" else None

    return end


def is_done(end):
    """Whether a request is answered, or an order is carried out."""
    return end in (True, "done", "committed")


def pairs(facts, living):
    """Two different nodes to tick, one after the other: of a few living nodes, or of the groups
    that a transaction locks."""
    if len(living) > MOST_PAIRED:
        locked = [one for one in facts.records.values() if one.role is not None]
        members = {f"tick n{node}" for one in locked for node in one.members}
        living = [node for node in living if node in members][:MOST_PAIRED]
    return [[one, other] for one in living for other in living if one != other]


def tails(facts, client):
    """Lines to try, the fewest first, each as a list of steps; a step is a line with a delivery."""
    nodes, _ = schedules.parts_of(facts.journal.scenario)
    count = next(int(line.split()[1]) for line in nodes if line.split()[0] == "nodes")
    living = [f"tick n{node}" for node in range(1, count + 1) if node not in facts.pending.crashed]
    asks = []
    if client:
        is_gone = client + journals.NODES in facts.pending.gone
        asks = [f"tick c{client}" if is_gone else f"go {client}"]
    yield []
    if asks:
        yield asks
    for node in living:
        yield [node]
    if asks:
        for node in living:
            yield [node, *asks]
    else:
        yield from pairs(facts, living)
    for ticks in range(1, MOST_TICKS + 1):
        yield [node for node in living for _ in range(ticks)] + asks * 2


def lines_of(steps):
    """The lines of some steps: what is pending is delivered before and behind each."""
    return [SETTLE, *(line for step in steps for line in (step, SETTLE))]


class Trial:
    """The rows of a journal with lines behind them, and what is looked for in the report."""

    def __init__(self, journal, program, wanted):
        self.program, self.wanted = program, wanted
        head, _ = schedules.parts_of(journal.scenario)
        self.before = [*head, *schedules.lines_of(journal, len(journal.rows))]

    def end(self, steps):
        """What it comes to with these steps; nothing where it still waits."""
        text = "\n".join([*self.before, *lines_of(steps), ""])
        status, report = schedules.run(self.program, "run", text)
        return self.wanted(report.split("\n")) if status in (0, 6) else None

    def shortened(self, steps, end):
        """The steps without those that can be left out, one after the other, for the same end."""
        place = 0
        while place < len(steps):
            fewer = steps[:place] + steps[place + 1 :]
            if self.end(fewer) == end:
                steps = fewer
            else:
                place += 1
        return steps


def freed(facts, trial, client):
    """The steps that free it, what it comes to then, and how many were tried. Steps by which an
    order is carried out come before those that end it otherwise."""
    tried, other = 0, (None, None)
    for steps in tails(facts, client):
        tried += 1
        end = trial.end(steps)
        if is_done(end):
            return trial.shortened(steps, end), end, tried
        if end and other[0] is None:
            other = steps, end
    steps, end = other
    return steps and trial.shortened(steps, end), end, tried


def told(facts, trial, client):
    """The steps, or None, and what there is to say of them."""
    steps, end, tried = freed(facts, trial, client)
    if steps is None:
        last = f"up to {MOST_TICKS} ticks of each living node"
        return None, [f"none of {tried} tries frees it: {last}"]
    if end is True:
        head = "these lines behind the schedule free it, as tried:"
    elif is_done(end):
        head = f"these lines behind the schedule free it, as tried; it is {end} then:"
    else:
        head = f"these lines end it as {end}; none of {tried} tries has it carried out:"
    return steps, [head, *(f"  {line}" for line in lines_of(steps))]
