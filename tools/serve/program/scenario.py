"""The lines of a scenario that a store is born with: version, nodes, groups, policy."""

from front import escape

MOST_NODES, MOST_CLIENTS, MOST_GROUPS, MOST_MEMBERS = 32, 64, 16, 9
NODES = 32  # actors above are clients, and 0 is the desk


def members_of(group, groups, nodes):
    """The members of a group of a new store: all nodes where there is one group, and else nodes side by side."""
    if groups == 1:
        return list(range(1, min(nodes, MOST_MEMBERS) + 1))
    count = min(nodes, MOST_MEMBERS, max(3, nodes // groups))
    first = group * nodes // groups
    return sorted((first + k) % nodes + 1 for k in range(count))


def lines_of(nodes, groups, policy):
    """The text of a new store. Each group has as many of the places where keys stand as any other."""
    lines = ["scatter 2", f"nodes {nodes}"]
    for group in range(groups):
        words = [escape.boundary(group, groups), *members_of(group, groups, nodes)]
        lines.append(" ".join(["group", *map(str, words)]))
    if policy:
        lines.append("policy")
    return "".join(f"{line}\n" for line in lines)


def head(scenario):
    """What a child reads before its first input."""
    return f"{scenario}inputs\n".encode("ascii")


def name(actor):
    """How a scenario calls an actor."""
    return f"n{actor}" if actor <= NODES else f"c{actor - NODES}"
