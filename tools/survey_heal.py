"""What a storm leaves open, and what a sweep heals, for `survey --heal`.

A sweep of T ticks is, for each living node, T times `tick nK`, each followed by a `settle` line,
and then for each client a tick and the same. A node is living where no `crash` line ends it; storms
crash no node. A request is open where its client has started and has no reply, and an order
where the report says so.
"""

SETTLE = "settle 1000000"
MOST = 12  # ticks a node, of the picture


def worded(text):
    """The words of a scenario's lines, without those that are skipped."""
    for number, line in enumerate(text.split("\n")):
        words = line.split()
        if words and not (number and line.startswith("#")):
            yield words


def numbers(text, word):
    """The numbers behind a first word."""
    return [int(words[1]) for words in worded(text) if words[0] == word and words[1:2]]


class Cast:
    """Who is in a scenario: the living nodes, all clients, and those that have started."""

    def __init__(self, text):
        nodes = (numbers(text, "nodes") or [0])[0]
        crashed = set(numbers(text, "crash"))
        self.living = [node for node in range(1, nodes + 1) if node not in crashed]
        self.clients = sorted(set(numbers(text, "client")))
        self.gone = set(numbers(text, "go"))


def sweep(cast, ticks):
    """The lines of a sweep."""
    told = [f"tick n{node}" for node in cast.living for _ in range(ticks)]
    told += [f"tick c{client}" for client in cast.clients]
    return "".join(f"{line}\n{SETTLE}\n" for line in told)


def tails(text, ticks, has_plot):
    """What is appended to each run: the sweep that was asked for, nothing, and those of a plot."""
    cast = Cast(text)
    more = [sweep(cast, count) for count in range(MOST + 1)] if has_plot else []
    return [sweep(cast, ticks), "", *more]


def many(count, what):
    return f"{count} {what}" if count == 1 else f"{count} {what}s"


class Open:
    """How much is open in some runs, and in how many of them."""

    def __init__(self, cast, outcomes):
        self.requests = self.asked = self.orders = self.told = 0
        self.request_runs = self.order_runs = self.unknown = 0
        for outcome in outcomes:
            if outcome.status in (0, 6):
                self.count(cast, outcome)
            else:
                self.unknown += 1

    def count(self, cast, outcome):
        asked = [
            word
            for name, word in outcome.requests.items()
            if int(name.split(" ")[0][1:]) in cast.gone
        ]
        left = sum(word != "answered" for word in asked)
        self.requests, self.asked = self.requests + left, self.asked + len(asked)
        self.orders, self.told = self.orders + outcome.open, self.told + len(outcome.orders)
        self.request_runs += left > 0
        self.order_runs += outcome.open > 0

    def words(self):
        unknown = f"; no report of {many(self.unknown, 'run')}" if self.unknown else ""
        return (
            f"{self.requests} of {self.asked} requests, in {many(self.request_runs, 'run')};"
            f" {self.orders} of {self.told} orders, in {many(self.order_runs, 'run')}{unknown}"
        )

    def counts(self):
        """What is open, of how much."""
        return {
            "requests": self.requests,
            "of_requests": self.asked,
            "orders": self.orders,
            "of_orders": self.told,
            "without_report": self.unknown,
        }

    def request_share(self):
        return self.requests / self.asked if self.asked else None

    def order_share(self):
        return self.orders / self.told if self.told else None


class Healed:
    """What sweeps came to in the runs of one scenario: before them, after the one that was asked
    for, and after each of a plot."""

    def __init__(self, text, ticks, runs):
        self.cast, self.ticks, self.runs = Cast(text), ticks, len(runs)
        opened = [Open(self.cast, column) for column in zip(*runs)]
        self.after, self.before = opened[:2] if opened else (Open(self.cast, []),) * 2
        self.over = opened[2:]

    def counts(self):
        """The same for a program."""
        over = {str(ticks): opened.counts() for ticks, opened in enumerate(self.over)}
        both = {"before": self.before.counts(), "after": self.after.counts()}
        return {"ticks": self.ticks, **both, "after_ticks": over}

    def tell(self):
        """Prints what was open, and what the sweeps healed."""
        nodes = " ".join(f"n{node}" for node in self.cast.living) or "no node"
        clients = " ".join(f"c{client}" for client in self.cast.clients) or "no client"
        ticks = many(self.ticks, "tick")
        print(f"sweep: {ticks} of each of {nodes}, then one of each of {clients}")
        print(f"open before the sweep: {self.before.words()}")
        print(f"open after the sweep: {self.after.words()}")
        for ticks, opened in enumerate(self.over):
            print(f"open after {many(ticks, 'tick')} a node: {opened.words()}")
