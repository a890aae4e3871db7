"""The requests of a stored journal as their clients saw them, for `linear` and `export`.

It looks at nothing but the row in which a client first sent each request, the row in which it took
the answer, and the reply: it knows nothing of logs, groups and proofs.
"""

import journals

NEVER = float("inf")


class Asked:
    """One request: who asked what, the rows of its issue and of its answer, and the reply."""

    def __init__(self, client, seq, said, row):
        self.client, self.seq, self.issued = client, seq, row
        ((self.kind, fields),) = said.items()
        self.key, self.value, self.expect = fields["key"], fields.get("value"), fields.get("expect")
        self.answered, self.reply = NEVER, None

    def writes(self, old):
        """Whether it writes its value, where this was the value of the key."""
        if self.kind == "Cas":
            return old is not None and old == self.expect
        return self.kind == "Put" or (self.kind == "Add" and old is None)

    def after(self, old):
        """The value of the key afterwards."""
        if self.writes(old):
            return self.value
        return None if self.kind == "Del" else old

    def fits(self, old):
        return self.answered == NEVER or self.reply == old


def requests(journal):
    """All requests in the order of their issue, read off the rows of the clients alone."""
    waiting, found = {}, []
    for row in journal.rows:
        if row.who <= journals.NODES:
            continue
        now = waiting.get(row.who)
        mail = journal.mail(row.of) if row.event == "Deliver" else None
        if now and mail and is_answer(mail, now):
            now.answered, now.reply = row.number, mail.fields["answer"]["Value"]["old"]
            waiting[row.who] = now = None
        for sent in row.sent:
            if sent.kind == "Request" and (now is None or sent.fields["seq"] != now.seq):
                now = Asked(row.who, sent.fields["seq"], sent.fields["op"], row.number)
                waiting[row.who] = now
                found.append(now)
    return found


def is_answer(mail, asked):
    """Whether a mail answers a request with a value."""
    is_its = mail.kind == "Answer" and mail.fields["seq"] == asked.seq
    return is_its and "Value" in mail.fields["answer"]
