"""Runs a store of nodes, each a process of the program, and answers redis clients.

    tools/serve [--proved FILE] [--kept FILE] [--program FILE] [--nodes N] [--groups G] [--policy]
                [--dir FOLDER] [--port P] [--bind ADDRESS] [--timeout SECONDS]
    tools/serve --node N --cluster FILE ..     one machine of many
    tools/serve --certificates FOLDER --nodes N
    tools/serve --check [--dir FOLDER]         audits what the files of a store say

`./scatter serve` calls it with the places of the proved program and of the unproved one. It is not
part of the proved program, and nothing of it is proved: docs/SERVE.md says what is promised.
"""

import argparse
import asyncio
import fcntl
import os
import sys

sys.dont_write_bytecode = True

from gather import check  # noqa: E402
from keeper import folder, keeping, role  # noqa: E402
from program import finding, scenario  # noqa: E402
from storage import file  # noqa: E402
from wire import cluster, tls  # noqa: E402

UNPROVED = "unproved: the same code answers, and not the proved program, which ./scatter build builds"
PORT, FOLDER = 7379, "scatter.store"
BAD_WORDS, REFUSED = 2, 2
VERSION = "1.3.0"


def number(low, high):
    """A type of arguments: a number in a range."""

    def read(text):
        if not text.isdecimal() or not low <= int(text) <= high:
            raise argparse.ArgumentTypeError(f"a number from {low} to {high}, and not {text}")
        return int(text)

    return read


def seconds(text):
    value = float(text)
    if not 0 < value <= 86400:
        raise argparse.ArgumentTypeError("more than 0 and at most 86400 seconds")
    return value


def arguments():
    parser = argparse.ArgumentParser(prog="./scatter serve", description="Runs a store that redis clients talk to.")
    parser.add_argument("--nodes", type=number(1, scenario.MOST_NODES), help="how many nodes; else 3")
    parser.add_argument("--groups", type=number(1, scenario.MOST_GROUPS), help="how many groups at first; else 1")
    parser.add_argument("--policy", action="store_true", help="groups are reshaped by themselves")
    parser.add_argument("--dir", default=FOLDER, help=f"the folder of the store; else ./{FOLDER}")
    parser.add_argument("--port", type=number(0, 65535), default=PORT, help=f"for redis clients; else {PORT}")
    parser.add_argument("--bind", default="127.0.0.1", help="the address of that port; else the loopback alone")
    parser.add_argument("--timeout", type=seconds, default=5.0, help="seconds that a request may take; else 5")
    parser.add_argument("--node", type=number(1, scenario.MOST_NODES), help="run one machine of many: its node")
    parser.add_argument("--cluster", help="the JSON file with all machines")
    parser.add_argument("--certificates", metavar="FOLDER", help="make a certificate for each of --nodes, and end")
    parser.add_argument("--check", action="store_true", help="audit the files of the store, and end")
    parser.add_argument("--program", help="the program that the nodes and clients are; else ./scatter's")
    parser.add_argument("--proved", help=argparse.SUPPRESS)
    parser.add_argument("--kept", help=argparse.SUPPRESS)
    parser.add_argument("--role", choices=("node", "front"), help=argparse.SUPPRESS)
    parser.add_argument("--number", type=int, help=argparse.SUPPRESS)
    parser.add_argument("--file", help=argparse.SUPPRESS)
    parser.set_defaults(version=VERSION)
    return parser.parse_args()


class Refused(Exception):
    """Why nothing is started."""


def program_of(asked):
    """The program that is there: the one that is named, the proved one, or the unproved one that is kept."""
    if asked.program or not (asked.proved or asked.kept):
        return finding.answering(asked.program)
    for one, is_proved in ((asked.proved, True), (asked.kept, False)):
        if one and os.access(one, os.X_OK):
            if not is_proved:
                role.say(UNPROVED)
            return os.path.abspath(one)
    raise finding.NoProgram("there is no program: ./scatter build builds it, and --program names one")


def wanted(asked):
    """The scenario that is asked for, or nothing where the folder's will do."""
    if asked.nodes is None and asked.groups is None and not asked.policy:
        return None
    return scenario.lines_of(asked.nodes or 3, asked.groups or 1, asked.policy)


def lock(path):
    """Holds the folder as long as this process lives, so that a second start is refused."""
    held = os.open(os.path.join(path, "lock"), os.O_RDWR | os.O_CREAT, 0o600)
    try:
        fcntl.flock(held, fcntl.LOCK_EX | fcntl.LOCK_NB)
    except BlockingIOError:
        raise Refused(f"{path}: this store is running") from None
    return held


def machines(asked):
    """Folder, cluster file, and which nodes and fronts run here."""
    if asked.node is None:
        if asked.cluster:
            raise Refused("--cluster needs --node")
        name, _ = folder.open_local(asked.dir, wanted(asked))
        lock(asked.dir)
        folder.renew_ports(asked.dir)
        found = cluster.Cluster(name)
        return name, sorted(found.machines), [1]
    if not asked.cluster or wanted(asked) is not None:
        raise Refused("--node needs --cluster, whose scenario says which nodes and groups there are")
    found = cluster.Cluster(asked.cluster)
    if asked.node not in found.machines:
        raise Refused(f"{asked.cluster}: it has no node {asked.node}")
    os.makedirs(asked.dir, 0o700, exist_ok=True)
    lock(asked.dir)
    return asked.cluster, [asked.node], [asked.node] if found.machines[asked.node].clients else []


def ready(asked):
    """What is said when all processes run."""

    def say(keeper):
        front = next((one for one in keeper.processes if one.port), None)
        if front:
            role.say(f"redis-cli -p {front.port} talks to this store; its files are in {asked.dir}; ctrl-C ends it")
        print(front.port if front else 0, flush=True)

    return say


async def serve(asked):
    program = program_of(asked)
    name, nodes, fronts = machines(asked)
    keeper = keeping.Keeper(asyncio.get_running_loop(), ready(asked))
    common = ["--cluster", os.path.abspath(name), "--program", program, "--timeout", str(asked.timeout)]
    for kind, numbers in (("node", nodes), ("front", fronts)):
        for one in numbers:
            words = ["--role", kind, "--number", str(one), "--file", folder.inputs_of(os.path.abspath(asked.dir), kind, one)]
            if kind == "front":
                words += ["--port", str(asked.port), "--bind", asked.bind]
            keeper.add(f"{kind} {one}", words + common)
    return await keeper.run()


def main():
    asked = arguments()
    if asked.role:
        return role.main(asked)
    try:
        if asked.certificates:
            tls.make(asked.certificates, range(1, (asked.nodes or 3) + 1))
            return 0
        if asked.check:
            return check.main(asked.dir, program_of(asked))
        return asyncio.run(serve(asked))
    except KeyboardInterrupt:
        return 130
    except (Refused, finding.NoProgram, folder.BadFolder, cluster.BadCluster, file.BadFile, tls.BadCertificate) as fault:
        role.say(str(fault))
        return REFUSED
    except OSError as fault:
        role.say(f"{fault.filename or asked.dir}: {fault.strerror}")
        return REFUSED


if __name__ == "__main__":
    sys.exit(main())
