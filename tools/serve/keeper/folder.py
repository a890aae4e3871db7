"""The folder of a store on one machine: which machines there are, the secret, and a file for each actor or front."""

import json
import os
import socket

from program import scenario
from storage import file
from wire import cluster, identity

CLUSTER, SECRET = "cluster.json", "secret"


class BadFolder(Exception):
    """A folder that cannot be used, with the cause."""


def free_ports(count):
    """Ports of the loopback that nobody listens on now."""
    sockets = [socket.socket() for _ in range(count)]
    for one in sockets:
        one.bind(("127.0.0.1", 0))
    ports = [one.getsockname()[1] for one in sockets]
    for one in sockets:
        one.close()
    return ports


def write(path, text):
    file.create(path, text.encode("ascii"))


def new(path, text):
    """Makes the folder of a new store on the loopback. All clients are of one front, that of node 1."""
    os.makedirs(path, 0o700, exist_ok=True)
    if os.listdir(path) and set(os.listdir(path)) != {SECRET}:
        raise BadFolder(f"{path}: it is no folder of a store, and not empty")
    if not os.path.exists(os.path.join(path, SECRET)):
        identity.new_secret(os.path.join(path, SECRET))
    count = next(int(line.split()[1]) for line in text.splitlines() if line.startswith("nodes "))
    nodes = {str(n): {"address": f"127.0.0.1:{p}"} for n, p in enumerate(free_ports(count), 1)}
    nodes["1"]["clients"] = [1, scenario.MOST_CLIENTS]
    store(path, {"scenario": text, "nodes": nodes, "secret": SECRET})


def store(path, said):
    write(os.path.join(path, CLUSTER), json.dumps(said, indent=1, sort_keys=True) + "\n")


def is_taken(address):
    """Whether another program listens at an address."""
    with socket.socket() as one:
        one.setsockopt(socket.SOL_SOCKET, socket.SO_REUSEADDR, 1)
        try:
            one.bind(address)
        except OSError:
            return True
    return False


def open_local(path, wanted):
    """The cluster file of a store on the loopback, which is made where the folder is new.

    `wanted` is the scenario that is asked for, or nothing where any will do.
    """
    name = os.path.join(path, CLUSTER)
    if not os.path.exists(name):
        new(path, wanted or scenario.lines_of(3, 1, False))
    found = cluster.Cluster(name)
    if wanted is not None and wanted != found.scenario:
        raise BadFolder(f"{path}: the store there has another scenario:\n{found.scenario.rstrip()}")
    return name, found


def renew_ports(path):
    """New ports for nodes whose ports others have taken since: the store itself is not running."""
    name = os.path.join(path, CLUSTER)
    found = cluster.Cluster(name)
    taken = [n for n, one in found.machines.items() if is_taken(one.address)]
    if not taken:
        return
    with open(name, encoding="ascii") as source:
        said = json.load(source)
    for node, port in zip(taken, free_ports(len(taken))):
        said["nodes"][str(node)]["address"] = f"127.0.0.1:{port}"
    store(path, said)


def inputs_of(path, kind, number):
    return os.path.join(path, f"{kind}-{number}.inputs")
