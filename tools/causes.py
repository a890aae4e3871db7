"""Which of its causes an answer `not leader` had, by the rows and by what they decided.

A node answers so in the row that brings it a request where it has no replica of the group, or one
that follows another node; and in a later row, where it leads no more and sends its queue away.
"""

import journals


def split_of(decided, group):
    """The entry that made a group of a part of another one; None where it was there at first."""
    for entry in decided.entries:
        kind, said = journals.kind_and_fields(entry.command)
        if kind == "Split" and said["child"] == group:
            return entry
    return None


def without_replica(decided, group, node, row):
    """Why a node has no replica of a group in a row."""
    records = [one for one in decided.records if one.group == group and one.row <= row]
    if not records:
        return f"{group} is not born yet"
    if node not in records[-1].members:
        return f"n{node} is no member of {group}, and has no replica of it"
    entry = split_of(decided, group)
    if entry is not None and node in records[0].members:
        where = f"slot {entry.slot} of {entry.group} or its outcome"
        return f"n{node} has no replica of {group} yet: it has not executed the split, {where}"
    return f"n{node} has no replica of {group} yet: it was not sent the group's state"


def stopped_by(journal, row):
    """Why a node leads no more in a row."""
    mail = journal.mail(row.of) if row.event == "Deliver" else None
    said = mail.fields if mail else {}
    seen = said.get("promised") or said.get("ballot")
    if seen and mail.kind in ("Prepare", "Accept", "Nack"):
        return f"n{row.who} leads no more: it saw ballot {journals.ballot(seen)}"
    return f"n{row.who} leads no more"


def cause(journal, decided, mail):
    """The cause of one answer `not leader`."""
    row, group, node = journal.rows[mail.row - 1], mail.fields["group"], mail.sender
    hint = mail.fields["answer"]["NotLeader"]["hint"]
    asked = journal.mail(row.of) if row.event == "Deliver" else None
    is_direct = asked is not None and asked.kind == "Request" and asked.sender == mail.receiver
    if not is_direct or asked.fields["seq"] != mail.fields["seq"]:
        return stopped_by(journal, row)
    if hint is None:
        return without_replica(decided, group, node, row.number)
    return f"n{node} follows n{hint}"


def mark(journal):
    """Gives each such answer its cause, which its words then have."""
    for mail in journal.mails:
        if mail.kind == "Answer" and "NotLeader" in mail.fields["answer"]:
            mail.cause = cause(journal, journal.decided(), mail)
