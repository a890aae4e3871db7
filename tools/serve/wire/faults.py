"""A network that is worse than it is, for tests: links that are cut, slow, or repeat what they carry."""

import random


class Faults:
    """By the receiver's number: `cut`, `slow` (seconds at most), `repeat` and `lose` (of 100 lines)."""

    def __init__(self, loop):
        self.loop, self.by = loop, {}

    def __bool__(self):
        return bool(self.by)

    def put(self, node, said):
        """Sets the faults of one link, or takes them away where nothing is said."""
        self.by.pop(node, None)
        if said:
            self.by[node] = said

    def send(self, node, text, send):
        said = self.by.get(node)
        if said is None:
            return send(text)
        if said.get("cut"):
            return None
        for line in text.splitlines(True):
            if random.random() * 100 < said.get("lose", 0):
                continue
            times = 2 if random.random() * 100 < said.get("repeat", 0) else 1
            for _ in range(times):
                if said.get("slow"):
                    self.loop.call_later(random.random() * said["slow"], send, line)
                else:
                    send(line)
        return None
