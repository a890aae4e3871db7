"""Makes random scenarios, each from a seed and its own number alone, for tools that compare.

They have nodes, 1 to 16 groups on them, with a policy or without, clients with requests, and a
schedule with losses, repeats, deliveries out of order, ticks, crashes, storms and orders of all six
kinds, also to groups that were split off. The groups share nodes, and their arcs begin among the
positions of the keys, so that a client asks several groups, and often one that it has no answer
from yet. `widened.py` adds what the grammar has besides.
"""

import random

import widened

LAST = 2**32 - 1


class Maker:
    """One random scenario, of one group or, by the most of them, of several."""

    def __init__(self, seed, number, groups=1):
        self.dice = random.Random(f"{seed}/{number}")
        self.most = groups
        nodes = [(30, (1, 1)), (45, (2, 3)), (20, (4, 6)), (4, (7, 12)), (1, (13, 32))]
        self.nodes = self.some(nodes)
        some = self.some([(20, (1, 1)), (60, (2, 3)), (15, (4, 5)), (5, (6, 9))])
        members = min(self.nodes, some)
        self.members = self.dice.sample(range(1, self.nodes + 1), members)
        count = self.some([(8, (0, 0)), (50, (1, 2)), (35, (3, 5)), (6, (6, 10)), (1, (11, 64))])
        self.clients = self.dice.sample(range(1, 65), count)
        self.calm = self.dice.random() < 0.5
        # in about half of them groups are ordered to change, in some of these their members alone
        self.orders = self.dice.choice([0, 0, 2, 6])
        self.reshaped = self.dice.random() < 0.7
        # in some leaders reshape their groups by themselves, and some have storms
        self.policy = self.dice.random() < 0.3
        self.storms = self.dice.choice([0, 0, 3])
        # a long one has many requests; in a lagging one a member also gets no mail for a long time
        self.kind = self.dice.choices(["plain", "long", "lagging"], [92, 5, 3])[0]
        if self.kind == "lagging":
            self.nodes = self.dice.randint(3, 5)
            count = self.dice.randint(3, self.nodes)
            self.members = self.dice.sample(range(1, self.nodes + 1), count)
            self.clients = self.dice.sample(range(1, 65), self.dice.randint(1, 5))
        self.sent = 0
        # the members of each group, in the order of the groups' lines
        self.sets = [self.members]
        self.lows = [self.low()]
        if self.most > 1:
            self.divide()
        # groups that there may be, with members and the ends of the arc; names that each node drew
        ends = self.lows[1:] + self.lows[:1]
        names = [f"0.{k}" for k in range(1, len(self.sets) + 1)]
        self.named = list(zip(names, self.sets, self.lows, ends))
        self.drawn = dict.fromkeys(range(1, self.nodes + 1), 0)

    def some(self, weighted):
        """A number from one of the ranges, each as likely as its weight says."""
        low, high = self.dice.choices([r for _, r in weighted], [w for w, _ in weighted])[0]
        return self.dice.randint(low, high)

    def low(self):
        """Where the arc of a lone group begins."""
        return self.dice.choice([0, 0, 0, 1, 1627389952, LAST, self.dice.randint(0, LAST)])

    def within(self, low, end):
        """Mostly a position of an arc, and not its first."""
        if self.dice.random() < 0.3:
            return self.position()
        return (low + self.dice.randint(1, max(1, (end - low - 1) % 2**32))) % 2**32

    def position(self):
        """Mostly at or beside a key."""
        near = ord(self.dice.choice("abmz!~")) * 2**24 + self.dice.choice([-1, 0, 0, 1])
        return self.dice.choice([near, self.dice.randint(0, LAST), self.dice.choice([0, LAST])])

    def divide(self):
        """Several groups: their members, and where their arcs begin."""
        count = self.some([(1, (1, 1)), (6, (2, 3)), (3, (4, 8)), (1, (9, 16))])
        places = set()
        while len(places) < min(count, self.most):
            places.add(self.position())
        self.lows = sorted(places)
        self.sets = [self.members]
        while len(self.sets) < len(self.lows):
            size = min(self.nodes, self.some([(40, (1, 1)), (50, (2, 3)), (10, (4, 9))]))
            self.sets.append(self.dice.sample(range(1, self.nodes + 1), size))
        self.members = sorted(set().union(*self.sets))

    def key(self):
        if self.dice.random() < 0.9:
            return self.dice.choice(["a", "b", "m", "z"])
        return self.text(self.some([(8, (1, 5)), (1, (63, 64))]))

    def value(self):
        if self.dice.random() < 0.9:
            return self.dice.choice(["v", "w", "x", "yy"])
        return self.text(self.some([(8, (1, 9)), (1, (255, 256))]))

    def text(self, length):
        return "".join(chr(self.dice.randint(33, 126)) for _ in range(length))

    def request(self):
        kind = self.dice.choice(["get", "put", "put", "del"])
        return f"{kind} {self.key()}" + (f" {self.value()}" if kind == "put" else "")

    def section(self, client):
        count = self.some([(5, (0, 0)), (80, (1, 4)), (14, (5, 12)), (1, (30, 60))])
        if self.kind != "plain":
            count = self.dice.randint(40, 160) + (100 if self.kind == "lagging" else 0)
        return [f"client {client}"] + [self.request() for _ in range(count)] + ["end"]

    def actor(self):
        """Mostly one that may have pending mail."""
        if self.clients and self.dice.random() < 0.2:
            return f"c{self.dice.choice(self.clients)}"
        if self.dice.random() < 0.97:
            return f"n{self.dice.choice(self.members)}"
        return f"n{self.dice.randint(1, self.nodes)}"

    def place(self):
        return self.some([(60, (1, 1)), (30, (2, 3)), (9, (4, 9)), (1, (10, LAST))])

    def mail(self):
        """Mostly the number of a mail that may have been sent."""
        sent = self.sent
        return self.some([(97, (1, max(1, sent))), (2, (1, 2 * sent + 9)), (1, (1, LAST))])

    def line(self, crashes):
        kind = self.dice.choices(
            ["deliver", "drop", "again", "tick", "settle", "go", "crash", "order", "storm"],
            [50, 6, 8, 9 if self.calm else 14, 6, 10 if self.clients else 0]
            + [crashes, self.orders, self.storms],
        )[0]
        self.sent += 1
        if kind in ("deliver", "drop"):
            return f"{kind} {self.actor()} {self.place()}"
        if kind == "again":
            return f"again {self.mail()}"
        if kind == "tick":
            return f"tick {self.actor()}"
        if kind == "settle":
            many = 6 if self.kind == "long" else 0
            most = self.some([(8, (1, 3)), (4, (4, 12)), (2, (13, 60)), (many, (60, 600))])
            return f"settle {most}"
        if kind == "go":
            return f"go {self.dice.choice(self.clients)}"
        if kind == "order":
            return self.order()
        if kind == "storm":
            number = self.dice.choice([self.dice.randint(0, 9), self.dice.randint(0, 2**64 - 1)])
            return f"storm {number} {self.dice.randint(1, 80)}"
        return f"crash {self.dice.randint(1, self.nodes)}"

    def group(self):
        """The place of a group, from 0."""
        return self.dice.randrange(len(self.sets)) if self.most > 1 else 0

    def order(self):
        """Mostly one for the least member, which leads at first, and mostly one that is taken."""
        place = self.dice.randrange(len(self.named))
        members = self.named[place][1]
        told = self.dice.choice([min(members)] * 3 + members + [self.dice.randint(1, self.nodes)])
        return self.order_of(place, told)

    def order_of(self, place, told):
        """An order to this group, told to this node; a group that it may split off is noted."""
        group, members, low, end = self.named[place]
        if self.dice.random() < 0.02:
            group = self.dice.choice(["0.2", "1.1"])
        node = self.dice.choice(members + [self.dice.randint(1, self.nodes)] * len(members))
        kinds = ["join", "join", "leave"]
        if self.reshaped:
            kinds += ["split", "split", "merge", "repart", "migrate"]
        kind = self.dice.choice(kinds)
        if kind in ("join", "leave"):
            return f"order {told} {kind} {node} {group}"
        if kind == "merge":
            rest = ""
        elif kind == "migrate":
            rest = f" {node}"
        else:
            at = self.within(low, end if kind == "split" or self.dice.random() < 0.5 else low)
            rest = f" {at}"
        self.drawn[told] += 1
        if kind == "split" and len(members) > 1:
            kept = len(members) - len(members) // 2
            self.named.append((f"{told}.{self.drawn[told]}", sorted(members)[kept:], at, end))
        return f"order {told} {kind} {group}{rest}"

    def reshapings(self):
        """Orders to leaders, with mail that is lost or late, or ticks until a coordinator gives up."""
        lines = []
        for _ in range(self.dice.randint(1, 5)):
            place = self.dice.randrange(len(self.named))
            members = self.named[place][1]
            lines.append(self.order_of(place, min(members)))
            for _ in range(self.dice.choice([0, 0, 1, 4])):
                lines.append(f"settle {self.dice.randint(1, 12)}")
                fate = self.dice.choice(["drop", "deliver"])
                lines.append(f"{fate} {self.actor()} {self.place()}")
            if self.dice.random() < 0.3:
                lines += [f"tick n{min(members)}"] * self.dice.randint(1, 9)
            lines.append(f"settle {self.some([(1, (1, 60)), (4, (200, 900))])}")
        return lines

    def comings(self):
        """A node comes and goes while its old mail is under way."""
        place = self.group()
        who = self.dice.randint(1, self.nodes)
        lead = min(self.sets[place])
        lines = []
        for word in ("join", "leave", "join"):
            lines.append(f"order {lead} {word} {who} 0.{place + 1}")
            lines.append(f"settle {self.dice.randint(1, 60)}")
            lines += [f"deliver n{who} {self.place()}" for _ in range(self.dice.randint(0, 3))]
            lines += [f"again {self.mail()}" for _ in range(self.dice.randint(0, 2))]
        return lines

    def lagging(self):
        """Mail for all but one member, whose own is lost, so that it falls behind."""
        left_out = self.dice.choice(self.members)
        who = [f"n{m}" for m in self.members if m != left_out] * 3
        who += [f"c{c}" for c in self.clients] * 2
        lines = []
        for _ in range(self.dice.randint(50, 300)):
            self.dice.shuffle(who)
            lines += [f"deliver {w} 1" for w in who]
            lines += [f"drop n{left_out} 1"] * self.dice.randint(2, 4)
        return lines + [f"settle {self.dice.randint(1, 500)}"]

    def ending(self):
        """Quiet after trouble: everybody ticks, and the mail is delivered."""
        lines = []
        for _ in range(self.dice.randint(1, 4)):
            who = [f"n{m}" for m in self.members] + [f"c{c}" for c in self.clients]
            self.dice.shuffle(who)
            lines += [f"tick {w}" for w in who[: self.dice.randint(1, len(who))]]
            most = self.some([(1, (20, 100)), (4, (400, 3000)), (1, (1000000, 1000000))])
            lines.append(f"settle {most}")
        return lines

    def lines(self):
        lines = ["scatter 1", f"nodes {self.nodes}"]
        for low, members in zip(self.lows, self.sets):
            lines.append(" ".join(["group", str(low)] + [str(m) for m in members]))
        if self.policy:
            lines.append("policy")
        for client in self.clients:
            lines += self.section(client)
        crashes = self.dice.choice([0, 0, 1, 3])
        if self.dice.random() < 0.8:
            lines += [f"go {c}" for c in self.clients if self.dice.random() < 0.8]
        counts = [(5, (0, 0)), (35, (1, 15)), (40, (16, 60)), (18, (61, 200)), (2, (201, 900))]
        count = self.some(counts)
        if self.kind == "lagging":
            lines += self.lagging()
        if self.orders and self.dice.random() < 0.2:
            lines += self.comings()
        if self.orders and self.reshaped and self.dice.random() < 0.5:
            lines += self.reshapings()
        lines += [self.line(crashes) for _ in range(count)]
        if self.orders and self.dice.random() < 0.2:
            lines += self.comings()
        if self.dice.random() < 0.7:
            lines += self.ending()
        return lines


def scenario_of(seed, number, groups, workers=1):
    """Makes a text with at most GROUPS groups, and `free` lines of at most WORKERS workers."""
    return widened.text(f"{seed}/{number}", Maker(seed, number, groups).lines(), workers)
