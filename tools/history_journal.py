"""The clients' requests of a stored journal as events of a history, for `history`.

A request begins in the row that first sent it, and ends in the row that took its answer.
"""

import json

import journals
from client_history import NEVER, requests
from history_text import Event


def events(journal):
    """All events; the line of each is its row."""
    made = []
    for place, asked in enumerate(requests(journal)):
        process = asked.client - journals.NODES
        values = [json.dumps(said) for said in (asked.expect, asked.value) if said is not None]
        begun = Event(asked.issued, process, asked.kind.lower(), json.dumps(asked.key), values)
        # (a client takes an answer before it asks again in the same row)
        made.append((asked.issued, 1, place, begun))
        if asked.answered != NEVER:
            told = ("none",) if asked.reply is None else ("value", None, (json.dumps(asked.reply),))
            made.append((asked.answered, 0, place, Event(asked.answered, process, *told)))
    return [event for *_, event in sorted(made, key=lambda one: one[:3])]
