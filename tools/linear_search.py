"""Whether the requests of each key have an order that fits: a search of its own, for `linear` and `histories`.

For each key it looks for an order of the requests in which each stands between its beginning and its
end and has the reply that one map gives (the search of Wing and Gong, 1993, with memory of what was
tried). A request without an end may stand anywhere behind its beginning, or nowhere. It shares no
code with the program or the reference, and finds no line at which a history goes wrong.
"""

import client_history
import history_text

NEVER = history_text.NEVER


class Part:
    """One request: whose it is, where it began and ended, what it makes of a value, and whether it may have met it."""

    def __init__(self, process, begun, ended, request):
        self.process, self.begun, self.ended = process, begun, ended
        self.after, self.fits = request.after, request.fits


def of_journal(journal):
    """The requests of a stored journal, by key."""
    keys = {}
    for one in client_history.requests(journal):
        keys.setdefault(one.key, []).append(Part(one.client, one.issued, one.answered, one))
    return keys


def of_history(text):
    """The requests of a history, by key, without those that failed."""
    keys = {}
    for one in history_text.requests(text):
        some = keys.setdefault(one.key, [])
        if one.end != ["fail"]:
            some.append(Part(one.process, one.begun, one.ended, one))
    return keys


def is_linearizable(parts):
    """Whether some order of the requests of one key fits. A state is how many requests of each process stand in it, and the value."""
    lines = {}
    for one in parts:
        lines.setdefault(one.process, []).append(one)
    lines = list(lines.values())
    start = (tuple([0] * len(lines)), None)
    seen, stack = {start}, [start]
    while stack:
        places, value = stack.pop()
        heads = [line[at] if at < len(line) else None for line, at in zip(lines, places)]
        soonest = min((head.ended for head in heads if head), default=NEVER)
        if soonest == NEVER:
            return True
        for i, head in enumerate(heads):
            if head is None or head.begun > soonest or not head.fits(value):
                continue
            state = (places[:i] + (places[i] + 1,) + places[i + 1 :], head.after(value))
            if state not in seen:
                seen.add(state)
                stack.append(state)
    return False


def faulty(keys):
    """The keys of which no order fits."""
    return [key for key, parts in sorted(keys.items()) if not is_linearizable(parts)]
