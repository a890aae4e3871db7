"""The machine of one node.

Each input is written down, fed to the program at once, and what the program prints of it is kept
until the input is on stable storage: then its mail leaves. Mail of the node to itself never leaves,
so it is an input at once; its own mail waits as all other.
"""

import collections
import json
import re

from machines import callers, ticks
from program import child, scenario
from storage import file, inputs, syncing
from wire import faults, frames, identity, links

MOST_INPUTS = 50_000  # that wait for the program; mail beyond is lost
STATE = b'"State"\n'
BEGIN = re.compile(rb"(?m)^(?=\d)")
# Kinds of mail that are answered by mail of their own.
ACCEPT, REQUEST = b' {"body":{"Accept":', b' {"body":{"Request":'


class Node:
    """A node with its file, its program, its links and those who call it."""

    def __init__(self, loop, number, cluster, words, path, tls):
        self.loop, self.number, self.cluster = loop, number, cluster
        self.on_fault = lambda fault: None
        self.file = file.File(path, {"node": number}, cluster.scenario)
        self.child = child.Child(loop, words, self.on_lines, self.ended)
        self.secret = identity.Secret(cluster.read_secret(), cluster.scenario)
        self.faults = faults.Faults(loop)
        self.tls = tls  # for calls, and for being called
        self.links, self.fronts = {}, {}
        self.inputs, self.rows = 0, 0  # inputs in the file, and those that the program has answered
        self.printed = collections.deque()  # of each line that is awaited, its line in the file, or who asks for the state
        self.kept = collections.deque()  # of each line that was printed and is not synced: (number, mails)
        self.orders = {}  # who is to be told the result of an order
        self.told = 0
        self.ticks = ticks.Ticks(number, "policy" in cluster.scenario.split("\n"))
        self.is_changed, self.unasked = True, b""
        self.suffixes = {
            n: b',"from":%d,"to":%d}' % (n, number) for n in cluster.machines if n != number
        }

    # ---- the beginning

    def replay(self):
        """Feeds the inputs of the file to the program. What it prints of them was sent before, or is repeated by ticks."""
        self.child.feed(scenario.head(self.cluster.scenario), 0)
        for text in self.file.replay():
            lines = text.splitlines(True)
            self.child.feed(b"".join([inputs.fed(line) for line in lines]), len(lines))
            self.told += sum(line[:2] == b"o " for line in lines)
            self.inputs += len(lines)
            self.printed.extend([None] * len(lines))
        self.replayed = self.inputs

    async def start(self):
        self.replay()
        self.syncing = syncing.Syncing(self.loop, self.file, self.on_synced, self.failed)
        host, port = self.cluster.machines[self.number].address
        called, calls = self.tls
        self.server = await self.loop.create_server(
            lambda: callers.Called(self), host, port, ssl=called, reuse_address=True
        )
        me = b"node %d" % self.number
        for node, machine in self.cluster.machines.items():
            if node != self.number:
                link = links.Link(self.loop, me, node, machine.address, self.secret, calls, self.faults)
                link.on_up = self.is_up
                self.links[node] = link
        self.loop.call_later(ticks.BEAT, self.beat)

    # ---- inputs

    def take(self, stored, line, can_wait=False):
        """An input: its line in the file, and the line for the program."""
        self.inputs += 1
        self.child.feed(line)  # (first, so that it works while the loop syncs)
        self.printed.append((self.syncing.add(stored, can_wait), self.inputs))

    def got(self, frame, mail):
        """Mail came from another machine."""
        if len(self.printed) < MOST_INPUTS and not self.child.is_full():
            self.take(b"m %s\n" % frame, b'{"Got":%s}\n' % mail, mail.startswith(frames.CALM))

    def got_all(self, data, fed, count):
        """Mail came from another machine: its lines, and those for the program. Says whether it takes all."""
        if len(self.printed) + count >= MOST_INPUTS or self.child.is_full():
            return False
        self.child.feed(fed, count)
        can_wait = ACCEPT not in data and REQUEST not in data
        first = self.syncing.add_all(BEGIN.sub(b"m ", data), count, can_wait)
        self.printed.extend([(first + k, self.inputs + k + 1) for k in range(count)])
        self.inputs += count
        return True

    def tick(self):
        self.take(inputs.TICK, b'"Tick"\n')

    def order(self, said, tell):
        """An order, by its JSON; `tell` gets its number and its result once."""
        number = self.told * scenario.MOST_NODES + self.number
        self.told += 1
        line = json.dumps({"number": number, "order": said}, separators=(",", ":"), sort_keys=True).encode()
        self.orders[number] = tell
        self.take(inputs.order(line), b'{"Told":%s}\n' % line)

    def ask_state(self, tell):
        """Asks the program for the state of the node, which is no input."""
        self.printed.append(tell)
        self.child.feed(STATE)

    # ---- what the program prints

    def on_lines(self, lines):
        printed, kept = self.printed, self.kept
        for line in lines:
            if not printed or line[:1] not in b"[{":
                self.unasked = line  # the last word of a program that ends
                return
            of = printed.popleft()
            if of is None:
                self.rows += 1
            elif type(of) is tuple:
                self.rows += 1
                self.is_changed = True
                if line != b"[]":
                    found = self.outgoing(line, of[1])
                    if found:
                        kept.append((of[0], found))
                        if of[0] > self.synced:
                            self.syncing.hurry()
            else:
                of(line)
        self.release()

    def outgoing(self, line, number):
        """The mail of a line, as (receiver, frame). That to the node itself becomes its input."""
        if line[:1] != b"[":
            return []
        found, me = [], self.number
        for place, (receiver, mail) in enumerate(frames.mails(line)):
            frame = b"%d %d %s" % (number, place, mail)
            self.ticks.sent(receiver, mail)
            if receiver == me:
                self.take(b"m %s\n" % frame, b'{"Got":%s}\n' % mail, True)
            else:
                found.append((receiver, frame))
        return found

    def on_synced(self, upto):
        self.synced = upto
        self.release()

    synced = 0

    def release(self):
        """Sends the mail of all inputs that are on stable storage."""
        kept, by = self.kept, {}
        while kept and kept[0][0] <= self.synced:
            for receiver, frame in kept.popleft()[1]:
                by.setdefault(receiver, []).append(frame)
        for receiver, some in by.items():
            if receiver in self.links:
                self.links[receiver].send(b"\n".join(some) + b"\n")
            elif receiver == frames.DESK:
                self.tell_orders(some)
            elif receiver in self.fronts:
                self.fronts[receiver].send(b"\n".join(some) + b"\n")

    def tell_orders(self, some):
        """Results of orders, for those who gave them. The desk itself keeps nothing."""
        for frame in some:
            said = json.loads(frames.split(frame)[2])["body"]["Told"]
            tell = self.orders.pop(said["order"], None)
            if tell:
                tell(said["order"], said["result"])

    # ---- time

    def is_up(self):
        """A machine can be reached again: a leader tells it the last entry."""
        if self.ticks.leads:
            self.tick()

    def beat(self):
        """Tells others which groups the node leads, and ticks where that is due."""
        self.loop.call_later(ticks.BEAT, self.beat)
        if self.is_changed and self.rows >= self.replayed:
            self.is_changed = False
            self.ask_state(self.on_state)
        if self.rows < self.replayed:
            return
        line = b"beat %s\n" % self.ticks.words().encode("ascii")
        for link in self.links.values():
            link.send(line)
        if self.ticks.is_due():
            self.tick()

    def on_state(self, line):
        self.ticks.is_state(json.loads(line)["state"])

    # ---- the end

    def ended(self, status):
        self.on_fault(child.over(f"node {self.number}", status, self.unasked))

    def failed(self, fault):
        """Nothing is written or sent any more; what begins again has what the file has."""
        self.on_fault(child.Stopped(f"{self.file.path}: {fault.strerror}"))

    def close(self):
        """Ends in order: what was taken is on stable storage."""
        self.server.close()
        for link in self.links.values():
            link.close()
        self.syncing.close()
        self.child.stop()
        self.file.close()
