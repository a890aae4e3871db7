"""INFO: what the nodes say of themselves, in sections as redis has them."""

import os
import time

from front import resp


def leaders(states):
    """Of each group the state of the member that leads it, or else of the one that has executed most."""
    found = {}
    for node, state in sorted(states.items()):
        for group in (state or {}).get("groups", ()):
            if group["gone"] is not None:
                continue
            said = (bool(group["leads"]), group["executed"])
            if group["group"] not in found or said > found[group["group"]][0]:
                found[group["group"]] = (said, node, group)
    return {name: (node if group["leads"] else None, group) for name, (_, node, group) in found.items()}


def groups(states):
    lines = []
    for name, (leader, group) in sorted(leaders(states).items(), key=lambda it: it[1][1]["arc"]):
        lo, length = group["arc"]
        members = "+".join(map(str, group["members"]))
        lines.append(
            f"group{name}:leader={leader or 'none'},members={members},lo={lo},len={length},"
            f"slots={group['executed']},pairs={group['pairs']}"
        )
    return lines


def nodes(states):
    lines = []
    for node, state in sorted(states.items()):
        if state is None:
            lines.append(f"node{node}:state=down")
            continue
        reaches = "+".join(map(str, state["links"])) or "none"
        lines.append(f"node{node}:state=up,rows={state['rows']},syncs={state['syncs']},reaches={reaches}")
    return lines


async def answer(front, words):
    """The sections that are asked for, or all."""
    states = await front.states()
    pool = front.pool
    free = sum(one.is_free for one in pool.clients.values())
    sections = {
        "server": [
            "redis_version:7.0.0",
            f"scatter_version:{front.version}",
            f"process_id:{os.getpid()}",
            f"tcp_port:{front.port}",
            f"uptime_in_seconds:{int(time.monotonic() - front.began)}",
        ],
        "clients": [
            f"connected_clients:{len(front.connections)}",
            f"store_clients:{len(pool.numbers)}",
            f"store_clients_begun:{len(pool.clients)}",
            f"store_clients_waiting:{len(pool.clients) - free}",
            f"store_syncs:{pool.syncing.syncs}",
            f"blocked_clients:{len(pool.waiting)}",
        ],
        "nodes": nodes(states),
        "groups": groups(states),
    }
    asked = [word.decode("latin-1").lower() for word in words]
    if not asked or set(asked) & {"all", "default", "everything"}:
        asked = list(sections)
    said = [
        "".join(f"{line}\r\n" for line in [f"# {name.capitalize()}", *lines])
        for name, lines in sections.items()
        if name in asked
    ]
    return resp.bulk("\r\n".join(said).encode())
