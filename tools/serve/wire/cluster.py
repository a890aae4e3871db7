"""The machines of a store: a JSON file with the scenario, and for each node its address and its clients.

    {"scenario": "scatter 2\\nnodes 3\\ngroup 0 1 2 3\\n",
     "nodes": {"1": {"address": "10.0.0.1:7301", "clients": [1, 21]}, ..},
     "secret": "secret", "certificates": "certificates"}

`clients` are the first and the last number of the clients of that machine's front. `secret` and
`certificates` are a file and a folder, beside the file where the path is not absolute; without
certificates each address has to be of the loopback.
"""

import ipaddress
import json
import os

from program import scenario as scenarios


class BadCluster(Exception):
    """A cluster file that cannot be used, with the cause."""


class Machine:
    """One machine: its node's number, where it listens, and which clients are its own."""

    def __init__(self, number, said):
        self.number = number
        host, colon, port = said["address"].rpartition(":")
        if not colon or not port.isdecimal() or not 0 < int(port) < 65536:
            raise BadCluster(f"node {number}: its address is no HOST:PORT")
        self.address = (host.strip("[]"), int(port))
        first, last = said.get("clients", [1, 0])
        self.clients = range(first, last + 1)

    def is_local(self):
        host = self.address[0]
        try:
            return host == "localhost" or ipaddress.ip_address(host).is_loopback
        except ValueError:
            return False


class Cluster:
    """What a cluster file says."""

    def __init__(self, path):
        self.path, self.folder = path, os.path.dirname(os.path.abspath(path))
        try:
            with open(path, encoding="ascii") as file:
                said = json.load(file)
            self.read(said)
        except OSError as fault:
            raise BadCluster(f"{path}: {fault.strerror}") from None
        except BadCluster as fault:
            raise BadCluster(f"{path}: {fault}") from None
        except (ValueError, KeyError, TypeError, AttributeError) as fault:
            raise BadCluster(f"{path}: it is no cluster file: {fault}") from None

    def read(self, said):
        self.scenario = said["scenario"]
        self.machines = {int(n): Machine(int(n), one) for n, one in sorted(said["nodes"].items())}
        self.certificates = self.beside(said.get("certificates"))
        self.secret = self.beside(said.get("secret", "secret"))
        lines = self.scenario.splitlines()
        count = next((int(line.split()[1]) for line in lines if line.startswith("nodes ")), 0)
        if sorted(self.machines) != list(range(1, count + 1)):
            raise BadCluster(f"the scenario has nodes 1 to {count}, and others have an address")
        taken = [c for one in self.machines.values() for c in one.clients]
        if len(set(taken)) != len(taken):
            raise BadCluster("a client is of two machines")
        if any(not 1 <= c <= scenarios.MOST_CLIENTS for c in taken):
            raise BadCluster(f"clients have the numbers 1 to {scenarios.MOST_CLIENTS}")
        far = [n for n, one in self.machines.items() if not one.is_local()]
        if far and not self.certificates:
            raise BadCluster(
                f"node {far[0]} is outside the loopback, and there are no certificates: without TLS that is refused"
            )

    def beside(self, path):
        return path and os.path.join(self.folder, path)

    def owner(self, client):
        """Which front has a client."""
        return next((n for n, one in self.machines.items() if client in one.clients), None)

    def read_secret(self):
        try:
            with open(self.secret, encoding="ascii") as file:
                return file.read().strip()
        except OSError as fault:
            raise BadCluster(f"{self.secret}: {fault.strerror}") from None
