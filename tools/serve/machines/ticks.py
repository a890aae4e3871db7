"""When a node ticks: where it leads and waits too long, or where a group of it has no leader, or it lags behind.

No promise depends on ticks. A tick makes a leader repeat what it waits for, and makes any other
member run for leadership of its group: so a node that leads nothing ticks only where a leader is
missed, or where it has not executed for a while what its leader has. Intervals grow with chance, so
that two do not run against each other for ever.
"""

import random
import time

from wire import frames

BEAT = 0.1  # seconds between two beats, by which a machine tells what groups its node has
MISSED = 1.0  # seconds without a beat of a leader
PATIENCE, LONGEST = 0.3, 1.0  # seconds that a leader waits for an answer: at first, and at most
LONE = 4.0  # seconds, at most, between two tries to lead
LAGS = 0.7  # seconds after which a leader helps a member that lags; the member itself waits three times as long
POLICY = 1.0  # seconds between two ticks of a leader of a store with a policy
# What a mail is, by the beginning of its name.
KIND = slice(len(b'{"body":{"'), len(b'{"body":{"') + 7)
ACCEPT, LEARN, TRANSACTION = b'Accept"', b'Learn":', b"Tx"


class Since:
    """Since when a number has stayed as it is, by name."""

    def __init__(self):
        self.by = {}

    def put(self, name, number, now):
        """How long the number of this name has not changed."""
        was, since = self.by.get(name, (None, now))
        if was != number:
            self.by[name] = (number, now)
            return 0.0
        return now - since

    def drop(self, name):
        self.by.pop(name, None)


class Ticks:
    """Sees what a node gets and sends, what its state is, and what others tell."""

    def __init__(self, me, policy):
        self.me, self.policy = me, policy
        self.open = {}  # slots that were offered and not executed: since when
        self.asked = {}  # clients that wait for an answer: since when
        self.transaction = None  # when mail of a transaction was sent last
        self.state, self.leads = [], frozenset()
        self.others = {}  # by node, when it was heard of and what it told
        self.heard = {}  # by group, when one that leads it was heard of
        self.lag = Since()
        self.wait, self.lone, self.patience = PATIENCE, MISSED, 3 * LAGS
        self.missed = {}  # by group, when this node runs for it
        self.now = time.monotonic
        self.last = self.now()

    # ---- what is seen

    def got(self, client):
        """A request came."""
        self.asked.setdefault(client, self.now())

    def sent(self, receiver, mail):
        """A mail of the node, of a kind that says what it waits for."""
        kind = mail[KIND]
        if kind == ACCEPT:
            if receiver == self.me:
                self.open.setdefault(frames.slot_of(mail), self.now())
        elif kind == LEARN:
            if self.open and self.open.pop(frames.slot_of(mail), None) is not None:
                self.wait = PATIENCE
        elif kind[:2] == TRANSACTION:
            self.transaction = self.now()
        elif self.asked:
            self.asked.pop(receiver, None)

    def beat(self, node, words):
        """Another machine tells what its node has: `GROUP=SLOTS`, with a star where it leads."""
        now, told = self.now(), {}
        for word in words:
            group, _, slots = word.lstrip("*").partition("=")
            if slots.isdigit():
                told[group] = (word[0] == "*", int(slots))
                if word[0] == "*":
                    self.heard[group] = now
        self.others[node] = (now, told)

    def words(self):
        """What this machine tells."""
        return " ".join(("*" if one["leads"] else "") + f"{one['group']}={one['executed']}" for one in self.state)

    def is_state(self, state):
        """The state of the node, as the program says it."""
        self.state = [one for one in state if one["gone"] is None]
        leads = frozenset(one["group"] for one in self.state if one["leads"])
        for one in self.state:
            # (a machine that begins, and a group that is new, have some time to be heard of)
            self.heard.setdefault(one["group"], self.now() + MISSED)
        if leads != self.leads:
            self.leads, self.lone = leads, MISSED
        if not leads:
            self.open.clear()
            self.asked.clear()
            self.transaction = None
        else:
            self.drop_executed()

    def drop_executed(self):
        """A leader of one member tells nobody to learn: its slots are executed by what it says of itself."""
        slots = {one["group"].encode(): one["executed"] for one in self.state if one["leads"]}
        for group, slot in list(self.open):
            if int(slot) <= slots.get(group, 1 << 32):
                del self.open[group, slot]

    # ---- what follows

    def is_due(self):
        """Whether the node is to tick now."""
        now = self.now()
        due = self.misses(now) or self.waits(now) or self.lags(now)
        if due:
            self.last = now
        return due

    def waits(self, now):
        """Whether a leader waits for what may be lost, or reshapes its groups by itself."""
        if not self.leads:
            return False
        since = min([*self.open.values(), *self.asked.values()], default=now)
        if self.transaction is not None and now - self.transaction > 3 * LONGEST:
            self.transaction = None
        if self.transaction is not None:
            since = min(since, self.transaction)
        if now - max(since, self.last) > self.wait or (self.has_laggards(now) and now - self.last > LAGS):
            self.wait = min(self.wait * random.uniform(1.5, 2.5), LONGEST)
            return True
        return self.policy and now - self.last > POLICY

    def has_laggards(self, now):
        """Whether a member that is heard of lags behind this leader, and stays where it is."""
        found = False
        for one in self.state:
            for node in one["members"] if one["leads"] else ():
                heard, told = self.others.get(node, (0, {}))
                slots = told.get(one["group"], (False, 0))[1]
                if now - heard > MISSED or slots >= one["executed"]:
                    self.lag.drop((one["group"], node))
                elif self.lag.put((one["group"], node), slots, now) > LAGS:
                    found = True
        return found

    def lags(self, now):
        """Whether this node stays behind a leader that is heard of, and nobody helps."""
        found = False
        for one in self.state:
            ahead = any(
                now - heard < MISSED and told.get(one["group"], (False, 0)) > (True, one["executed"])
                for heard, told in self.others.values()
            )
            if one["leads"] or not ahead:
                self.lag.drop(one["group"])
            elif self.lag.put(one["group"], one["executed"], now) > self.patience:
                self.lag.drop(one["group"])
                found = True
        if found:
            self.patience = min(self.patience * random.uniform(1, 2), 4 * LONE)
        return found

    def misses(self, now):
        """Whether a leader is missed for longer than this node waits to run itself."""
        mine = {one["group"] for one in self.state if self.me in one["members"]}
        for group in list(self.missed):
            if group not in mine or group in self.leads or now - self.heard.get(group, 0) < MISSED:
                del self.missed[group]
        for group in mine - self.leads:
            if now - self.heard.get(group, 0) >= MISSED:
                self.missed.setdefault(group, now + random.uniform(0, self.lone))
        if not self.missed:
            self.lone = MISSED
            return False
        if now < min(self.missed.values()):
            return False
        self.lone = min(self.lone * 2, LONE)
        self.missed = {group: now + MISSED + random.uniform(0, self.lone) for group in self.missed}
        return True
