"""A journal as Chrome trace events, for `export --perfetto`.

Each actor is a track, and each of its rows a slice on it. A mail is a flow from the row that sent
it to the row that took, lost or repeated it. Orders, transactions and requests are slices of tracks
of their own: an order from the row that told it to the one that told what it came to, a transaction
from the row that decided its beginning to the one that decided its outcome, with an instant for
each decided command about it, and a request from its issue to its answer. What is open at the end
lasts to the end. A row is ten microseconds long, since the format has no other clock.
"""

import json

import client_history
import explained
import journals

ROW, LASTS, SENDS, TAKES = 10, 8, 6, 2  # microseconds of a row, of its slice, and in the slice
ACTORS, ORDERS, TRANSACTIONS, REQUESTS = 1, 2, 3, 4
NETWORK = 1000  # the track of losses and repeats, behind those of clients


def track(row):
    return row.who or NETWORK


def named(kind, pid, tid, **said):
    return {"ph": "M", "name": kind, "pid": pid, "tid": tid, "args": said}


def names(journal):
    """The names of the tracks."""
    for pid, name in enumerate(["actors", "orders", "transactions", "requests"], 1):
        yield named("process_name", pid, 0, name=name)
        yield named("process_sort_index", pid, 0, sort_index=pid)
    for tid, name in sorted({(track(row), journals.doer(row)) for row in journal.rows}):
        yield named("thread_name", ACTORS, tid, name=name)
        yield named("thread_sort_index", ACTORS, tid, sort_index=tid)


def title(journal, row):
    """What a row is, in a word or two."""
    mail = journal.mail(row.of) if row.event in ("Deliver", "Drop", "Again") else None
    kind = mail.kind if mail else ""
    if row.event == "Deliver":
        return kind or row.event
    return f"{row.event} {kind}" if kind else row.event


def rows(journal):
    """A slice for each row."""
    found = {}
    for entry in journal.decided().entries:
        found.setdefault(entry.row, []).append(journals.decision(entry))
    for row in journal.rows:
        sends = [
            f"{mail.number} to {journals.actor(mail.receiver)}: {journals.words(mail)}"
            for mail in row.sent
        ]
        args = {"row": row.number, "event": journals.event(journal, row), "sends": sends}
        args["decides"] = found.get(row.number, [])
        yield {
            "ph": "X",
            "cat": "row",
            "name": title(journal, row),
            "pid": ACTORS,
            "tid": track(row),
            "ts": ROW * row.number,
            "dur": LASTS,
            "args": args,
        }


def flows(journal):
    """A flow for each time that a mail is taken, lost or repeated."""
    number = 0
    for row in journal.rows:
        mail = journal.mail(row.of) if row.event in ("Deliver", "Drop", "Again") else None
        if mail is None:
            continue
        number += 1
        said = {"cat": "mail", "name": mail.kind, "id": number, "pid": ACTORS}
        begun = {"ph": "s", "tid": mail.sender, "ts": ROW * mail.row + SENDS}
        ended = {"ph": "f", "bp": "e", "tid": track(row), "ts": ROW * row.number + TAKES}
        for end in (begun, ended):
            yield {**said, **end, "args": {"mail": mail.number}}


def slice_of(place, begun, ended, args, steps=()):
    """A slice of a track of its own, from one row to another, with instants on its track."""
    pid, cat, number, name = place
    said = {"cat": cat, "id": number, "pid": pid, "tid": 0, "name": name}
    parts = [{**said, "ph": "b", "ts": ROW * begun, "args": args}]
    parts += [{**said, "ph": "n", "ts": ROW * row + TAKES, "name": step} for row, step in steps]
    parts.append({**said, "ph": "e", "ts": ROW * ended + LASTS})
    return sorted(parts, key=lambda part: part["ts"])


def orders(journal):
    """A slice for each order that a node got."""
    results, last = {}, len(journal.rows)
    for mail in journal.mails:
        if mail.kind == "Told":
            results[mail.fields["order"]] = mail.row, journals.phrase(mail.fields["result"])
    for row in journal.rows:
        if row.event != "Told":
            continue
        number = row.of["number"]
        ended, result = results.get(number, (last, "open"))
        args = {"order": number, "node": journals.doer(row), "result": result}
        name = f"order {number} {journals.order(row.of['order'])}"
        yield from slice_of((ORDERS, "order", number, name), row.number, ended, args)


def about(entry):
    """The transaction that a decided command is about."""
    fields = journals.kind_and_fields(entry.command)[1]
    return fields.get("tx") or fields.get("child")


def transactions(journal):
    """A slice for each transaction that a group began."""
    said, last = {}, len(journal.rows)
    for entry in journal.decided().entries:
        said.setdefault(about(entry), []).append(entry)
    begun = [one for one in journal.decided().records if one.role == explained.ASKS]
    for record in {one.tx: one for one in reversed(begun)}.values():
        entries = [one for one in said[record.tx] if one.row >= record.row]
        ends = [one for one in entries if one.group == record.group and "Decided" in one.effect]
        outcome = journals.outcome(ends[0].effect["Decided"]) if ends else "open"
        args = {"transaction": record.tx, "group": record.group, "outcome": outcome}
        steps = [(one.row, journals.decision(one)) for one in entries]
        name = f"{record.tx} {kind_of(entries[0])} of {record.group}"
        place = (TRANSACTIONS, "transaction", record.tx, name)
        yield from slice_of(place, record.row, ends[0].row if ends else last, args, steps)


def kind_of(entry):
    """Whether a transaction splits, merges, moves a boundary or hands over a member."""
    kind, fields = journals.kind_and_fields(entry.command)
    return (kind if kind == "Split" else journals.kind_and_fields(fields["body"])[0]).lower()


def requests(journal):
    """A slice for each request."""
    for asked in client_history.requests(journal):
        client = journals.actor(asked.client)
        is_open = asked.answered == client_history.NEVER
        ended = len(journal.rows) if is_open else asked.answered
        reply = "open" if is_open else "none" if asked.reply is None else f"value {asked.reply}"
        args = {"client": client, "request": asked.seq, "reply": reply}
        words = [asked.kind.lower(), asked.key, asked.expect, asked.value]
        name = f"{client} {asked.seq} " + " ".join(word for word in words if word is not None)
        place = (REQUESTS, "request", f"{client}.{asked.seq}", name)
        yield from slice_of(place, asked.issued, ended, args)


def lines(journal):
    """The lines of the file: an event each."""
    parts = (names, rows, flows, orders, transactions, requests)
    events = (json.dumps(event) for part in parts for event in part(journal))
    yield '{"displayTimeUnit": "ns", "traceEvents": ['
    held = next(events)
    for event in events:
        yield held + ","
        held = event
    yield held
    yield "]}"
