"""Those who call a node: other nodes, whose mail is taken, and fronts, which ask and order besides."""

import json

from program import scenario
from wire import frames, identity, lines

FED = rb'{"Got":\1}'


class Called(lines.Lines):
    """A connection that another machine made. Nothing of it is taken before it has shown who it is."""

    def __init__(self, node):
        super().__init__()
        self.node, self.own = node, identity.word()
        self.peer = None  # its kind and its number
        self.suffix, self.clients = b"", ()
        self.pattern = None

    def made(self):
        self.transport.write(b"scatter peer 1 %s\n" % self.own)

    def on_lines(self, said):
        if self.peer is None:
            if not self.greet(said.pop(0)):
                return self.refuse("it does not show who it is")
        for line in said:
            if not self.on_line(line):
                return self.refuse("no line of such a peer")
        return None

    def greet(self, line):
        """Whether the caller shows that it is who it says."""
        node = self.node
        found = node.secret.caller(self.own, node.number, line)
        if found is None:
            return False
        (kind, number), answer = found
        shown = identity.number_of_certificate(self.transport)
        if number not in node.cluster.machines or (shown is not None and shown != number):
            return False
        if kind == "node":
            if number == node.number:
                return False
            self.suffix = node.suffixes[number]
            self.pattern = frames.from_to(number, node.number)
        else:
            self.clients = [scenario.NODES + c for c in node.cluster.machines[number].clients]
            node.fronts.update((actor, self) for actor in self.clients)
        self.peer, self.most = (kind, number), lines.MOST_LINE
        self.transport.write(answer + b"\n")
        return True

    def lost(self):
        fronts = self.node.fronts
        for actor in self.clients:
            if fronts.get(actor) is self:
                del fronts[actor]

    # ---- lines of a peer

    def on_whole(self, data):
        """Takes lines that are all mail of a node, which is most often so."""
        if self.pattern is None:
            return False
        fed, count = self.pattern.subn(FED, data)
        return count == data.count(b"\n") and self.node.got_all(data, fed, count)

    def on_line(self, line):
        """Takes a line, and says whether it is one that this peer may send."""
        if line[:1].isdigit():
            mail = frames.mail_of(line)
            if mail is None:
                return False
            if self.suffix:
                is_its = mail.endswith(self.suffix)
            else:
                ends = frames.ends_of(mail)
                is_its = ends and ends[0] in self.clients and ends[1] == self.node.number
                if is_its:
                    self.node.ticks.got(ends[0])
            if is_its:
                self.node.got(line, mail)
            return is_its
        word, _, rest = line.partition(b" ")
        return self.peer[0] == "node" and self.is_beat(word, rest) or self.is_asked(word, rest)

    def is_beat(self, word, rest):
        if word != b"beat":
            return False
        self.node.ticks.beat(self.peer[1], rest.decode("ascii", "replace").split())
        return True

    def is_asked(self, word, rest):
        """What a front asks: `state ID`, `order ID ORDER`, `faults ID JSON`. The answer has the ID."""
        number, _, said = rest.partition(b" ")
        if self.peer[0] != "front" or not number.isdigit():
            return False
        if word == b"state":
            self.node.ask_state(lambda line: self.answer(b"state", number, self.state(line)))
        elif word == b"order":
            self.node.order(
                json.loads(said),
                lambda order, result: self.answer(
                    b"order", number, json.dumps([order, result]).encode("ascii")
                ),
            )
        elif word == b"faults":
            for node, fault in json.loads(said).items():
                self.node.faults.put(int(node), fault)
            self.answer(b"faults", number, b"{}")
        else:
            return False
        return True

    def state(self, line):
        """The state of the node, with what the machine adds."""
        node = self.node
        links = sorted(n for n, link in node.links.items() if link.is_up)
        said = {"node": node.number, "rows": node.rows, "links": links, "groups": json.loads(line)["state"]}
        said["syncs"] = node.syncing.syncs
        return json.dumps(said).encode("ascii")

    def answer(self, word, number, said):
        if not self.transport.is_closing():
            self.send(b"%s %s %s\n" % (word, number, said))
