"""Whether a history of one register has an order that fits, for `export_test`.

It takes operations as Knossos does: `:write`, `:cas` and `:read`; one that failed has no effect and
is left out, and one without an answer may stand anywhere behind its beginning, or nowhere. A read
of nil is one of anything.
"""

NEVER = float("inf")


class Operation:
    def __init__(self, said, begun):
        self.function, self.value = said["f"], said["value"]
        self.process, self.begun, self.ended = said["process"], begun, NEVER

    def after(self, now):
        """The register afterwards, and whether the operation fits."""
        if self.function == "write":
            return self.value, True
        if self.function == "cas":
            return self.value[1], self.value[0] == now
        return now, self.value is None or self.value == now


def operations(history):
    """The operations of a history, without those that failed; the times are places in it."""
    open_now, found = {}, []
    for place, said in enumerate(history):
        if said["type"] == "invoke":
            open_now[said["process"]] = Operation(said, place)
            continue
        one = open_now.pop(said["process"])
        if said["type"] == "fail":
            continue
        one.value = said["value"]
        one.ended = NEVER if said["type"] == "info" else place
        found.append(one)
    return found + list(open_now.values())


def fits(history):
    """Whether some order fits: each process's operations in their order, and none before one that
    had ended when it began. A state is how many of each process stand in it, and the register."""
    queues = {}
    for one in operations(history):
        queues.setdefault(one.process, []).append(one)
    queues = list(queues.values())
    start = (tuple([0] * len(queues)), None)
    seen, stack = {start}, [start]
    while stack:
        places, now = stack.pop()
        heads = [queue[at] if at < len(queue) else None for queue, at in zip(queues, places)]
        soonest = min((head.ended for head in heads if head), default=NEVER)
        if soonest == NEVER:
            return True
        for at, head in enumerate(heads):
            if head is None or head.begun > soonest:
                continue
            then, is_right = head.after(now)
            state = (places[:at] + (places[at] + 1,) + places[at + 1 :], then)
            if is_right and state not in seen:
                seen.add(state)
                stack.append(state)
    return False
