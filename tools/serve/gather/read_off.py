"""The requests and the schedule that are read off rows: an ordinary journal of the longest beginning that fits.

An audit of an ordinary journal takes a scenario with all requests and lines, of which a text has at
most 20,000, and 1,000 requests a client. Its orders are numbered from 1 on, without gaps. Where
actors get their first pending mail, one line `free` stands for many deliveries.
"""

import bisect
import json

NODES = 32
MOST_LINES = 20_000
MOST_REQUESTS = 1_000
DIVIDER = b"journal\n"


def actor(who):
    return f"n{who}" if who <= NODES else f"c{who - NODES}"


def request_line(op):
    """The line of a request."""
    (kind, parts), = op.items()
    return " ".join([kind.lower()] + [parts[name] for name in ("key", "expect", "value") if name in parts])


def order_line(node, order):
    """The line of an order, by its words in a scenario."""
    (kind, parts), = order.items()
    if kind in ("Join", "Leave"):
        words = [parts["node"], parts["group"]]
    elif kind in ("Split", "Repart"):
        words = [parts["group"], parts["at"]]
    elif kind == "Migrate":
        words = [parts["group"], parts["node"]]
    else:
        words = [parts["group"]]
    return " ".join(["order", str(node), kind.lower(), *map(str, words)])


class DoesNotFit(Exception):
    """A row with which the scenario is no text that an audit takes."""


class Unlawful(Exception):
    """A row that no line of any schedule makes."""


class Reading:
    """The requests and the lines of the rows so far."""

    def __init__(self, head):
        self.count = head  # lines of the text
        self.requests, self.lines = {}, []
        self.receivers, self.pending = [None], {}  # by number of mail; by actor, ascending numbers
        self.orders, self.first = 0, 0  # first: deliveries of first pending mail that end the lines

    def line(self, text):
        self.first = 0
        self.lines.append(text)
        self.count += 1

    def event(self, who, event):
        if event in ("Go", "Tick"):
            self.line(f"go {who - NODES}" if event == "Go" else f"tick {actor(who)}")
        elif event == "Crash":
            self.line(f"crash {who}")
        elif "Told" in event:
            self.orders += 1
            if event["Told"]["number"] != self.orders:
                raise DoesNotFit("an order whose number is another than its place among all orders")
            self.line(order_line(who, event["Told"]["order"]))
        elif "Again" in event:
            self.line(f"again {event['Again']}")
            self.add(event["Again"])
        else:
            (kind, number), = event.items()
            self.take(kind, number)

    def add(self, number):
        bisect.insort(self.pending.setdefault(self.receivers[number], []), number)

    def take(self, kind, number):
        """A delivery or a loss of a mail."""
        who = self.receivers[number] if 0 < number < len(self.receivers) else 0
        numbers = self.pending.get(who, [])
        place = bisect.bisect_left(numbers, number)
        if place == len(numbers) or numbers[place] != number:
            raise Unlawful(f"mail {number} is not pending there")
        del numbers[place]
        if kind == "Drop" or place:
            self.line(f"{kind.lower() if kind == 'Drop' else 'deliver'} {actor(who)} {place + 1}")
        elif self.first:
            self.first += 1
            self.lines[-1] = f"free {self.first} 1"
        else:
            self.line("free 1 1")
            self.first = 1

    def send(self, who, mail):
        self.receivers.append(mail["to"])
        if mail["to"]:
            self.add(len(self.receivers) - 1)
        said = mail["body"].get("Request")
        if not said or who != NODES + said["client"]:
            return
        ops = self.asks(said["client"])
        if said["seq"] == len(ops) + 1:
            if len(ops) == MOST_REQUESTS:
                raise DoesNotFit(f"request {len(ops) + 1} of client {said['client']}")
            ops.append(request_line(said["op"]))
            self.count += 1

    def asks(self, client):
        """The requests of a client; its section has two lines more."""
        if client not in self.requests:
            self.requests[client] = []
            self.count += 2
        return self.requests[client]

    def row(self, text):
        """Reads a row. Raises DoesNotFit where the text with it is none that an audit takes."""
        row = json.loads(text)
        self.event(row["who"], row["event"])
        if row["who"] > NODES:
            self.asks(row["who"] - NODES)
        for mail in row["sent"]:
            self.send(row["who"], mail)
        if self.count > MOST_LINES:
            raise DoesNotFit(f"line {self.count} of the scenario")

    def scenario(self):
        """The sections of all clients, and the schedule."""
        for client, ops in sorted(self.requests.items()):
            yield from [f"client {client}", *ops, "end"]
        yield from self.lines


def copied(path):
    """The lines before the divider, and the texts of the rows."""
    with open(path, "rb") as source:
        head = []
        for line in source:
            if line == DIVIDER:
                return head, list(source)
            head.append(line)
    return head, []


def fitting(head, rows):
    """How many rows fit, from the first on, and what the next one has that does not."""
    reading = Reading(len(head))
    for taken, text in enumerate(rows):
        try:
            reading.row(text)
        except DoesNotFit as fault:
            return taken, str(fault)
    return len(rows), None


def beginning(path, made):
    """Writes an ordinary journal of the longest beginning of a file of rows that fits.

    Returns what the next row has that does not fit, or None where all rows do. Raises Unlawful with
    the first row that no line of a schedule makes.
    """
    head, rows = copied(path)
    try:
        taken, why = fitting(head, rows)
    except Unlawful as fault:
        raise Unlawful(f"{path}: {fault}") from fault
    reading = Reading(len(head))
    for text in rows[:taken]:
        reading.row(text)
    with open(made, "wb") as target:
        target.writelines(head)
        target.writelines(line.encode("ascii") + b"\n" for line in reading.scenario())
        target.write(DIVIDER)
        target.writelines(rows[:taken])
    return why
