"""What a page of a run needs of its journal, in columns that a browser reads fast.

A column of numbers is base64 of little-endian numbers of 1, 2 or 4 bytes each, whichever all of
them fit in. Rows, mails, requests, orders and places of logs are numbered from 1, with 0 for none;
names and texts stand once in a list, and are numbered from 0. `page_parts/data.js` reads it.
"""

import array
import base64
import sys

import causes
import journals
import page_waits

EVENTS = ["Deliver", "Tick", "Go", "Told", "Crash", "Drop", "Again"]
DESK = 0


class Names:
    """A list in which each name stands once."""

    def __init__(self, *first):
        self.all, self.places = [], {}
        for name in first:
            self.place(name)

    def place(self, name):
        if name not in self.places:
            self.places[name] = len(self.all)
            self.all.append(name)
        return self.places[name]


class Subject:
    """What a mail or a decided command is about: a request, a transaction, an order; 0 for none."""

    def __init__(self, request=0, tx=0, order=0):
        self.request, self.tx, self.order = request, tx, order


class Request:
    """One request: who asked what, and the rows that issued and answered it."""

    def __init__(self, client, seq, said):
        self.client, self.seq, self.said = client, seq, journals.operation(said)
        ((_, fields),) = said.items()
        self.key, self.issued, self.answered, self.reply = fields["key"], 0, 0, ""


class Order:
    """One order: its number in the scenario, which node got which order, and what the desk got."""

    def __init__(self, number, node, said, row):
        self.number, self.node, self.said, self.row = number, node, said, row
        self.result, self.ended = "", 0


def column(numbers):
    """A column of numbers for the page."""
    most = max(numbers, default=0)
    kind, width = ("B", 1) if most < 2**8 else ("H", 2) if most < 2**16 else ("I", 4)
    packed = array.array(kind, numbers)
    if sys.byteorder == "big":
        packed.byteswap()
    return {"width": width, "bytes": base64.b64encode(packed.tobytes()).decode()}


def ballot(mail):
    """The ballot of a mail of Paxos, as round and node; zeros of other mail."""
    return mail.fields.get("ballot") or mail.fields.get("promised") or (0, 0)


def shown(line):
    """A line of the scenario, whose comments may be in UTF-8."""
    try:
        return line.encode("latin-1").decode("utf-8")
    except UnicodeDecodeError:
        return line


class Page:
    """Gathers the columns of one journal."""

    def __init__(self, journal, walk=None):
        self.journal, self.decided, self.walk = journal, journal.decided(), walk
        causes.mark(journal)
        self.texts, self.kinds = Names(""), Names()
        self.groups, self.txs, self.keys = Names(""), Names(""), Names("")
        for name in self.decided.groups:
            self.groups.place(name)
        self.requests, self.numbers = [], {}
        self.orders, self.told = [], {}
        self.accepts = {}
        self.find_orders()
        self.subjects = [self.subject(mail) for mail in journal.mails]
        self.find_answers()

    # ---- what mail is about

    def request(self, client, seq, said):
        """The number of a request, which is noted where it is new."""
        place = (client, seq)
        if place not in self.numbers:
            self.requests.append(Request(client, seq, said))
            self.numbers[place] = len(self.requests)
        return self.numbers[place]

    def about(self, command):
        """What a command is about."""
        kind, fields = journals.kind_and_fields(command)
        if kind == "Call":
            return Subject(self.request(fields["client"], fields["seq"], fields["op"]))
        tx = fields.get("child") if kind == "Split" else fields.get("tx")
        order = self.told.get(fields.get("order"), 0)
        return Subject(0, self.txs.place(tx) if tx else 0, order)

    def subject(self, mail):
        said = mail.fields
        if mail.kind == "Request":
            number = self.request(said["client"], said["seq"], said["op"])
            asked = self.requests[number - 1]
            asked.issued = asked.issued or mail.row
            return Subject(number)
        if mail.kind == "Answer":
            return Subject(self.numbers.get((mail.receiver - journals.NODES, said["seq"]), 0))
        if mail.kind == "Told":
            return Subject(order=self.told.get(said["order"], 0))
        if mail.kind in ("Accept", "Accepted"):
            place = (said["group"], said["slot"], *said["ballot"])
            if mail.kind == "Accept":
                self.accepts[place] = self.about(said["command"])
            return self.accepts.get(place, Subject())
        if mail.kind == "Learn":
            return self.about(said["command"])
        return Subject(0, self.txs.place(said["tx"])) if "tx" in said else Subject()

    def find_orders(self):
        for row in self.journal.rows:
            if row.event == "Told":
                said = journals.order(row.of["order"])
                self.orders.append(Order(row.of["number"], row.who, said, row.number))
                self.told[row.of["number"]] = len(self.orders)
        for mail in self.journal.mails:
            if mail.kind == "Told" and mail.fields["order"] in self.told:
                order = self.orders[self.told[mail.fields["order"]] - 1]
                order.result, order.ended = journals.phrase(mail.fields["result"]), mail.row

    def find_answers(self):
        """The first answer with a value that each request's client got."""
        for row in self.journal.rows:
            mail = self.journal.mail(row.of) if row.event == "Deliver" else None
            if mail is None or mail.kind != "Answer" or "Value" not in mail.fields["answer"]:
                continue
            number = self.subjects[mail.number - 1].request
            if number and not self.requests[number - 1].answered:
                asked = self.requests[number - 1]
                asked.answered, asked.reply = row.number, journals.answer(mail.fields["answer"])

    # ---- columns

    def mail_group(self, mail):
        said = mail.fields
        if mail.kind in ("TxPrepare", "TxWatch"):
            return said["offer" if mail.kind == "TxPrepare" else "watch"]["part"]
        if mail.kind in ("TxVote", "TxWatched", "TxElsewhere"):
            return said["coord"]
        return said.get("group") or said.get("part") or ""

    def rows(self):
        rows = self.journal.rows
        told = iter(range(1, len(self.orders) + 1))
        of = [next(told) if row.event == "Told" else row.of or 0 for row in rows]
        return {
            "who": column([row.who for row in rows]),
            "event": column([EVENTS.index(row.event) for row in rows]),
            "of": column(of),
            "sent": column([len(row.sent) for row in rows]),
            "line": column(page_waits.lines_of_rows(self.journal, self.walk)),
        }

    def mails(self):
        mails, about = self.journal.mails, self.subjects
        return {
            "from": column([mail.sender for mail in mails]),
            "to": column([mail.receiver for mail in mails]),
            "kind": column([self.kinds.place(mail.kind) for mail in mails]),
            "group": column([self.groups.place(self.mail_group(mail)) for mail in mails]),
            "text": column([self.texts.place(journals.words(mail)) for mail in mails]),
            "request": column([one.request for one in about]),
            "tx": column([one.tx for one in about]),
            "order": column([one.order for one in about]),
            "slot": column([mail.fields.get("slot", 0) for mail in mails]),
            "round": column([ballot(mail)[0] for mail in mails]),
            "by": column([ballot(mail)[1] for mail in mails]),
        }

    def entries(self):
        """The decided places of all logs, in the order of their rows."""
        entries = self.decided.entries
        about = [self.about(entry.command) for entry in entries]
        said = [self.texts.place(journals.command(entry.command)) for entry in entries]
        came = [self.texts.place(journals.effect(entry.effect)) for entry in entries]
        return {
            "row": column([entry.row for entry in entries]),
            "group": column([self.groups.place(entry.group) for entry in entries]),
            "slot": column([entry.slot for entry in entries]),
            "text": column(said),
            "effect": column(came),
            "request": column([one.request for one in about]),
            "tx": column([one.tx for one in about]),
            "order": column([one.order for one in about]),
        }

    def request_columns(self):
        asked = self.requests
        return {
            "client": column([one.client for one in asked]),
            "seq": column([one.seq for one in asked]),
            "key": column([self.keys.place(one.key) for one in asked]),
            "text": column([self.texts.place(one.said) for one in asked]),
            "issued": column([one.issued for one in asked]),
            "answered": column([one.answered for one in asked]),
            "reply": column([self.texts.place(one.reply) for one in asked]),
        }

    def shapes(self):
        """Of each group, from which rows on it was how."""
        found = []
        for one in self.decided.records:
            found.append(
                [
                    one.row,
                    self.groups.place(one.group),
                    *one.arc,
                    one.members,
                    one.role,
                    self.txs.place(one.tx) if one.tx else 0,
                    one.gone,
                    one.succ,
                    one.pred,
                ]
            )
        return found

    def rings(self):
        """The ring from which rows on: where arcs begin, how long they are, and whose."""
        last = {}
        for row, cuts in self.decided.rings:
            last[row] = [[lo, length, self.groups.place(name)] for lo, length, name in cuts]
        return list(last.items())

    def ballots(self):
        """The highest ballot of each group that was sent so far: row, group, round, node."""
        highest, found = {}, []
        for mail in self.journal.mails:
            if mail.kind not in ("Prepare", "Accept"):
                continue
            name, ballot = mail.fields["group"], mail.fields["ballot"]
            if ballot > highest.get(name, [0, 0]):
                highest[name] = ballot
                found.append([mail.row, self.groups.place(name), *ballot])
        return found

    def actors(self):
        """The desk where any node gets an order, each node, and each client of the scenario."""
        nodes, clients = 0, []
        for number, line in enumerate(self.journal.scenario):
            words = line.split()
            if number and line.startswith("#") or len(words) != 2:
                continue
            if words[0] == "nodes":
                nodes = int(words[1])
            elif words[0] == "client":
                clients.append(journals.NODES + int(words[1]))
        desk = [DESK] if self.orders else []
        return [*desk, *range(1, nodes + 1), *sorted(clients)]

    def all(self, title, is_tried=False):
        """All that the page has; where it is wished, lines that free what waits are tried."""
        return {
            "title": title,
            "count": len(self.journal.rows),
            "scenario": [shown(line) for line in self.journal.scenario],
            "events": EVENTS,
            "actors": self.actors(),
            "rows": self.rows(),
            "mails": self.mails(),
            "entries": self.entries(),
            "requests": self.request_columns(),
            "orders": [
                [one.number, one.node, one.said, one.row, one.result, one.ended]
                for one in self.orders
            ],
            "waits": page_waits.waits_of(self, is_tried),
            "shapes": self.shapes(),
            "rings": self.rings(),
            "ballots": self.ballots(),
            "kinds": self.kinds.all,
            "groups": self.groups.all,
            "txs": self.txs.all,
            "keys": self.keys.all,
            "texts": self.texts.all,
        }
