"""Orders of groups, as a scenario spells them without the node: it goes to whoever leads the group."""

import json
import re
import time

from front import info, resp

GROUP = re.compile(rb"(\d{1,2})\.([1-9]\d{0,9})\Z")
# By the word of an order: the names of its arguments, in the order of a scenario.
FORMS = {
    b"join": ("node", "group"),
    b"leave": ("node", "group"),
    b"split": ("group", "at"),
    b"merge": ("group",),
    b"repart": ("group", "at"),
    b"migrate": ("group", "node"),
}
LAST_POSITION = 4294967295


class BadOrder(Exception):
    """Words that are no order."""


def parse(front, words):
    """The JSON of an order, and its group's name."""
    form = FORMS.get(words[0].lower())
    if form is None:
        raise BadOrder(f"an order is one of {b', '.join(FORMS).decode()}")
    if len(words) != len(form) + 1:
        raise BadOrder(f"the form is: {words[0].decode().lower()} {' '.join(form).upper()}")
    fields = {}
    for name, word in zip(form, words[1:]):
        number = resp.whole(word)
        if name == "group":
            if not GROUP.match(word):
                raise BadOrder("a group's name is X.Y")
            fields[name] = word.decode()
        elif name == "node" and number not in front.cluster.machines:
            raise BadOrder(f"a node is a number from 1 to {len(front.cluster.machines)}")
        elif name == "at" and (number is None or not 0 <= number <= LAST_POSITION):
            raise BadOrder(f"a position is a number from 0 to {LAST_POSITION}")
        else:
            fields[name] = number
    return {words[0].decode().capitalize(): fields}, fields["group"]


def hint_of(result):
    """Which node may lead instead, where the order was refused since this one does not; else nothing."""
    if isinstance(result, dict) and isinstance(result.get("Refused"), dict):
        return result["Refused"].get("NotLeader", {}).get("hint", 0)
    return 0


def is_not_leader(result):
    return isinstance(result, dict) and "NotLeader" in str(result.get("Refused"))


def told(number, result):
    """A result in words, as a report has it."""
    if isinstance(result, str):
        return resp.simple(f"order {number} {kebab(result)}")
    ((word, cause),) = result.items()
    cause = cause if isinstance(cause, str) else next(iter(cause))
    return resp.error(f"REFUSED order {number} {kebab(word)} {kebab(cause)}")


def kebab(name):
    return re.sub("(?<!^)([A-Z])", r"-\1", name).lower()


async def answer(front, words):
    """Gives an order to the leader of its group, and waits for its result."""
    try:
        said, group = parse(front, words)
    except BadOrder as fault:
        return resp.error(f"ERR {fault}")
    until = time.monotonic() + front.pool.timeout
    text = json.dumps(said, separators=(",", ":"), sort_keys=True).encode()
    result, hint = None, 0
    for _ in range(3):
        node = hint or info.leaders(await front.states()).get(group, (None,))[0]
        node = node or next((n for n, link in front.links.items() if link.is_up), None)
        if node is None:
            return resp.error("ERR no node can be reached")
        result = await front.ask(node, b"order", text, max(0.1, until - time.monotonic()))
        if result is None:
            return resp.error("TIMEOUT no result yet; the order may still take effect")
        if not is_not_leader(result[1]):
            break
        hint = hint_of(result[1])
    return told(*result)


async def faults(front, words):
    """FAULTS NODE JSON: makes links of a node worse, by the number of the receiver; for tests."""
    node = resp.whole(words[0])
    try:
        said = {int(to): one for to, one in json.loads(words[1]).items()}
    except (ValueError, AttributeError):
        said = None
    if node not in front.links or said is None:
        return resp.error("ERR the form is: FAULTS NODE {RECEIVER: {cut | slow | repeat | lose}}")
    done = await front.ask(node, b"faults", json.dumps(said).encode())
    return resp.OK if done is not None else resp.error("ERR the node does not answer")
