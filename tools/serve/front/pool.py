"""The clients of the store that a front has: each asks one request at a time.

A client is a process of the program from its first request on. Its number belongs to the file of
this front for ever, and its requests are numbered by the program. The step that ends a request is
held back until the next one is asked, so an answer is told at once and needs no sync of its own.
"""

import collections
import json
import random
import time

from program import child, scenario
from storage import file, inputs, syncing
from wire import frames

TURN = 0.05  # seconds between two looks at what waits
SOONEST, LATEST = 0.25, 2.0  # seconds after which a client that waits ticks
MOST_HINTS, LONGEST_HINT = 4, 0.2  # answers that name another node and are taken at once; delay of later ones
SENT, REPLY = b'{"sent":', b'{"reply":'
NO_VALUE = b'{"reply":{"old":null},"sent":[]}'
NOT_LEADER = b'"answer":{"NotLeader":'


class Client:
    """One client: its program, and whether a request of it is under way."""

    def __init__(self, pool, number):
        self.pool, self.number = pool, number
        self.actor = scenario.NODES + number
        self.child = child.Child(pool.loop, pool.words(number), self.on_lines, self.ended)
        self.child.feed_now(scenario.head(pool.cluster.scenario), 0)
        self.inputs, self.asked, self.replied = 0, 0, 0
        self.printed, self.unasked = collections.deque(), b""
        self.request, self.since, self.wait, self.hints = None, 0.0, SOONEST, 0

    @property
    def is_free(self):
        return self.asked == self.replied

    def replay(self, line):
        """An input of the file."""
        self.inputs += 1
        self.asked += line[:2] == b"a "
        self.printed.append(None)
        self.child.feed(inputs.fed(line))

    def take(self, stored, can_wait):
        """An input, as its line of the file."""
        self.inputs += 1
        self.child.feed_now(inputs.fed(stored))  # (first, so that it works while the loop syncs)
        number = self.pool.syncing.add(b"%d %s" % (self.number, stored), can_wait)
        self.printed.append((number, self.inputs))

    def ask(self, request):
        self.request, self.asked, self.hints = request, self.asked + 1, 0
        self.since, self.wait = time.monotonic(), SOONEST * random.uniform(0.8, 1.2)
        self.take(b"a %s\n" % request.operation.json(), False)

    def got(self, frame, mail):
        """Mail came. Nobody waits for it where no request is under way."""
        if self.is_free:
            return
        if NOT_LEADER in mail:
            self.hints += 1
            if self.hints > MOST_HINTS:
                # nobody leads, as it seems: to be sent from one to another is not to take all time
                wait = min(0.005 * 2 ** (self.hints - MOST_HINTS), LONGEST_HINT)
                self.pool.loop.call_later(wait, self.got_later, frame)
                return
        self.take(b"m %s\n" % frame, True)

    def got_later(self, frame):
        if not self.is_free:
            self.take(b"m %s\n" % frame, True)

    def look(self, now):
        """Ticks where it has waited too long."""
        if not self.is_free and now - self.since > self.wait and not self.printed:
            self.since, self.wait = now, min(self.wait * random.uniform(1.5, 2.5), LATEST)
            self.take(inputs.TICK, True)

    def on_lines(self, lines):
        for line in lines:
            if not self.printed or line[:1] != b"{":
                self.unasked = line  # the last word of a program that ends
                return
            of = self.printed.popleft()
            if line.startswith(REPLY):
                self.replied += 1
                self.pool.replied(self, None if line == NO_VALUE else json.loads(line)["reply"]["old"])
            elif of is not None and line.startswith(SENT):
                for place, (node, mail) in enumerate(frames.mails(line[len(SENT) : -1])):
                    self.pool.send(of[0], node, b"%d %d %s\n" % (of[1], place, mail))

    def ended(self, status):
        self.pool.on_fault(child.over(f"client {self.number}", status, self.unasked))


class Request:
    """What is asked of the store: for which process of the history, until when, and who is told the reply."""

    __slots__ = ("process", "operation", "until", "tell", "is_over")

    def __init__(self, process, operation, until, tell):
        self.process, self.operation = process, operation
        self.until, self.tell, self.is_over = until, tell, False


class Pool:
    """The clients of a front, their file, and the requests that wait for one of them."""

    def __init__(self, loop, number, cluster, words, path, timeout):
        self.loop, self.number, self.cluster = loop, number, cluster
        self.words, self.timeout = words, timeout
        self.on_fault = lambda why: None
        self.numbers = cluster.machines[number].clients
        owner = {"front": number, "clients": [self.numbers[0], self.numbers[-1]]}
        self.file = file.File(path, owner, cluster.scenario)
        self.clients, self.free, self.kept = {}, [], []
        self.waiting, self.asked = collections.deque(), collections.deque()
        self.processes = 0
        self.links = {}
        self.synced = 0

    # ---- the beginning

    def replay(self):
        """Feeds the inputs of the file to clients, and counts processes of the history."""
        last = 0
        for text in self.file.replay():
            for line in text.splitlines(True):
                first, _, rest = line.partition(b" ")
                if first == b"h":
                    last = max(last, int(rest.split(b" ", 1)[0]))
                else:
                    number = int(first)
                    if number not in self.clients:
                        self.clients[number] = Client(self, number)
                    self.clients[number].replay(rest)
        self.processes = last // scenario.MOST_NODES + 1
        self.syncing = syncing.Syncing(self.loop, self.file, self.on_synced, self.failed)
        self.free = [one for one in self.clients.values() if one.is_free]
        self.loop.call_later(TURN, self.turn)

    def new_process(self):
        """A number of the history that no other front and no earlier run has given."""
        self.processes += 1
        return self.processes * scenario.MOST_NODES + self.number

    # ---- requests

    def ask(self, process, operation, tell):
        """Asks the store. `tell` gets the value before, or Unanswered or Busy."""
        request = Request(process, operation, time.monotonic() + self.timeout, tell)
        client = self.take_free()
        if client is not None:
            self.begin(client, request)
        elif all(one.request is None or one.request.is_over for one in self.clients.values()):
            tell(BUSY)
        else:
            self.waiting.append(request)

    def take_free(self):
        """A client that is free: one that has a process, or a new one."""
        if self.free:
            return self.free.pop()
        number = next((n for n in self.numbers if n not in self.clients), None)
        if number is None:
            return None
        self.clients[number] = Client(self, number)
        return self.clients[number]

    def begin(self, client, request):
        # (both lines are of one batch, which is written before mail of it leaves)
        self.syncing.add(b"h %d %s\n" % (request.process, request.operation.line().encode("ascii")), True)
        self.asked.append(request)
        client.ask(request)

    def replied(self, client, old):
        """A client has its reply. Who asked is told, unless it was told that it waits too long."""
        request, client.request = client.request, None
        if request is not None and not request.is_over:
            request.is_over = True
            said = "none" if old is None else f"value {old}"
            self.end(request, said)
            request.tell(old)
        self.freed(client)

    def end(self, request, said):
        self.syncing.add(b"h %d %s\n" % (request.process, said.encode("ascii")), True)

    def freed(self, client):
        if not client.is_free:
            return
        while self.waiting:
            request = self.waiting.popleft()
            if not request.is_over:
                self.begin(client, request)
                return
        self.free.append(client)

    # ---- mail

    def send(self, number, node, frame):
        """Sends mail whose input is on stable storage, and keeps other until it is."""
        if number > self.synced:
            self.kept.append((number, node, frame))
            self.syncing.hurry()
        elif node in self.links:
            self.links[node].send(frame)

    def on_synced(self, upto):
        """Sends what was kept until now."""
        self.synced, by, left = upto, {}, []
        for one in self.kept:
            if one[0] <= upto:
                by.setdefault(one[1], []).append(one[2])
            else:
                left.append(one)
        self.kept = left
        for node, some in by.items():
            if node in self.links:
                self.links[node].send(b"".join(some))

    def got(self, frame):
        """Mail of a node to a client."""
        mail = frames.mail_of(frame)
        ends = mail and frames.ends_of(mail)
        client = ends and self.clients.get(ends[1] - scenario.NODES)
        if client:
            client.got(frame, mail)

    # ---- time

    def turn(self):
        """Looks which clients have waited too long, and which callers."""
        self.loop.call_later(TURN, self.turn)
        now = time.monotonic()
        for client in self.clients.values():
            client.look(now)
        while self.asked and (self.asked[0].is_over or self.asked[0].until <= now):
            request = self.asked.popleft()
            if not request.is_over:
                request.is_over = True
                self.end(request, "lost")
                request.tell(TIMEOUT)
        while self.waiting and (self.waiting[0].is_over or self.waiting[0].until <= now):
            request = self.waiting.popleft()
            if not request.is_over:
                request.is_over = True
                request.tell(BUSY)

    # ---- the end

    def failed(self, fault):
        """Nothing is written or sent any more; what begins again has what the file has."""
        self.on_fault(child.Stopped(f"{self.file.path}: {fault.strerror}"))

    def close(self):
        self.syncing.close()
        for client in self.clients.values():
            client.child.stop()
        self.file.close()


class Unanswered:
    """Why there is no reply: nothing was asked of the store, or nobody knows whether it takes effect."""

    def __init__(self, said):
        self.said = said


BUSY = Unanswered("BUSY every client of this machine waits for an answer; nothing was asked")
TIMEOUT = Unanswered("TIMEOUT no answer yet; the request may still take effect")
