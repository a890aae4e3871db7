"""Leaves out of a scenario what its lines do not need: groups, clients, nodes and requests.

Each scenario with less is a candidate, which the program plays: nothing is known here of what a
part is for. Groups and nodes behind one that is left out take its number, in all lines.
"""

import os
import sys

from program import HERE

sys.path.append(os.path.join(HERE, "tools", "script"))

import forms  # noqa: E402


class Parts:
    """A scenario by its parts: the words of each line."""

    def __init__(self, head, lines):
        self.header, self.nodes, self.groups, self.policy = head[0].split(), 0, [], False
        self.clients, self.lines = [], [line.split() for line in lines]
        for words in (line.split() for line in head[1:]):
            if words[0] == "nodes":
                self.nodes = int(words[1])
            elif words[0] == "group":
                self.groups.append(words)
            elif words[0] == "policy":
                self.policy = True
            elif words[0] == "client":
                self.clients.append((words[1], []))
            elif words[0] != "end":
                self.clients[-1][1].append(words)

    def head(self):
        """The lines before the schedule."""
        lines = [self.header, ["nodes", str(self.nodes)], *self.groups]
        lines += [["policy"]] * self.policy
        for client, requests in self.clients:
            lines += [["client", client], *requests, ["end"]]
        return [" ".join(words) for words in lines]

    def texts(self):
        """The lines before the schedule, and its lines."""
        return self.head(), [" ".join(words) for words in self.lines]

    def changed(self, **parts):
        """The same with other parts."""
        other = Parts.__new__(Parts)
        other.__dict__.update(self.__dict__)
        other.__dict__.update(parts)
        return other

    # ---- what may be left out

    def fewer(self):
        """All candidates with one part less, those with larger parts first."""
        for place in range(len(self.groups)):
            if len(self.groups) > 1:
                yield self.without_group(place)
        for place in range(len(self.clients)):
            yield self.without_client(place)
        if self.policy:
            yield self.changed(policy=False)
        for node in range(self.nodes, 0, -1):
            if self.nodes > 1:
                yield self.without_node(node)
        for place, (_, requests) in enumerate(self.clients):
            size = len(requests)
            while size > 0:
                size = size // 2 if size > 1 else 0
                for start in range(len(requests) - max(size, 1), -1, -max(size, 1)):
                    yield self.without_requests(place, start, max(size, 1))

    def without_group(self, place):
        """Without a group, and without the lines that name it."""
        gone = f"0.{place + 1}"
        lines = [words for words in self.lines if gone not in names_of(words)]
        others = {f"0.{old + 1}": f"0.{old}" for old in range(place + 1, len(self.groups))}
        groups = self.groups[:place] + self.groups[place + 1 :]
        lines = [renamed(words, lambda name: others.get(name, name)) for words in lines]
        return self.changed(groups=groups, lines=lines)

    def without_client(self, place):
        """Without a client, and without the lines that name it."""
        gone = f"c{self.clients[place][0]}"
        lines = [words for words in self.lines if gone not in names_of(words)]
        return self.changed(
            clients=self.clients[:place] + self.clients[place + 1 :], lines=lines
        )

    def without_node(self, node):
        """Without a node, and without the lines that name it; a group of it alone goes too."""
        place = next(
            (at for at, words in enumerate(self.groups) if words[2:] == [str(node)]), None
        )
        if place is not None and len(self.groups) > 1:
            return self.without_group(place).without_node(node)

        def other(name):
            return lowered(name, node)

        groups = [
            [*words[:2], *(other(f"n{one}")[1:] for one in words[2:] if one != str(node))]
            for words in self.groups
        ]
        lines = [words for words in self.lines if not is_of(words, node)]
        lines = [renamed(words, other) for words in lines]
        return self.changed(nodes=self.nodes - 1, groups=groups, lines=lines)

    def without_requests(self, place, start, count):
        """Without some requests of a client."""
        client, requests = self.clients[place]
        fewer = client, requests[:start] + requests[start + count :]
        return self.changed(clients=[*self.clients[:place], fewer, *self.clients[place + 1 :]])


def kinds_of(words):
    """Each word of a line with its name in the form of that line."""
    form = forms.form_of(words)
    return [(word, name) for word, (name, _) in zip(words, forms.kinds_of(form, len(words)))]


def name_of(word, kind):
    """The name that a word stands for: n2, c1 or 0.1; None where it is none."""
    if kind in ("N", "M"):
        return f"n{word}"
    if kind == "C":
        return f"c{word}"
    return word if kind in ("A", "G") else None


def names_of(words):
    """The nodes, clients and groups that a line names."""
    return {name_of(word, kind) for word, kind in kinds_of(words)} - {None}


def is_of(words, node):
    """Whether a line names a node, or a group that the node named."""
    names = names_of(words)
    return f"n{node}" in names or any(name.startswith(f"{node}.") for name in names)


def lowered(name, node):
    """A name where the nodes behind one have a number less."""
    if "." in name:
        first, _, second = name.partition(".")
        return f"{int(first) - (int(first) > node)}.{second}"
    if name[0] == "n" and int(name[1:]) > node:
        return f"n{int(name[1:]) - 1}"
    return name


def renamed(words, other):
    """A line with other names."""
    found = []
    for word, kind in kinds_of(words):
        name = name_of(word, kind)
        new = name and other(name)
        found.append(word if new is None else new if kind in ("A", "G") else new[1:])
    return found
