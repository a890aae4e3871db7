"""The main of one process of a store: a node's machine or a front. It ends in order when its input does.

Status 0: it was told to end. REFUSED: it cannot serve, and to begin again is of no use. FAULT: it
stopped, and may begin again from what its file has.
"""

import asyncio
import gc
import os
import resource
import signal
import sys

from front import serving
from machines import node
from storage import file
from wire import cluster, tls

REFUSED, FAULT = 3, 75
READY = b"ready %d\n"


def say(text):
    print(f"scatter: {text}", file=sys.stderr, flush=True)


def more_files():
    """As many open files as may be: each connection is one."""
    _, most = resource.getrlimit(resource.RLIMIT_NOFILE)
    resource.setrlimit(resource.RLIMIT_NOFILE, (most, most))


def collect_seldom():
    """Nearly nothing here is a cycle, and each input makes some objects that live until it is synced."""
    gc.freeze()
    gc.set_threshold(100_000, 20, 20)


def make(loop, asked):
    """The node or the front that is asked for."""
    machines = cluster.Cluster(asked.cluster)
    if asked.number not in machines.machines:
        raise cluster.BadCluster(f"{asked.cluster}: it has no node {asked.number}")
    contexts = tls.contexts(machines, asked.number)
    program = asked.program
    if asked.role == "node":
        words = [program, "node", str(asked.number)]
        return node.Node(loop, asked.number, machines, words, asked.file, contexts)
    if not machines.machines[asked.number].clients:
        raise cluster.BadCluster(f"{asked.cluster}: machine {asked.number} has no clients")
    return serving.Front(
        loop,
        asked.number,
        machines,
        lambda client: [program, "client", str(client)],
        asked.file,
        contexts,
        asked,
    )


async def run(asked):
    loop = asyncio.get_running_loop()
    over = loop.create_future()

    def end(status):
        if not over.done():
            over.set_result(status)

    def fault(why):
        # at once: nothing more is written, and no mail is sent
        say(str(why))
        os._exit(REFUSED if why.is_final else FAULT)  # pylint: disable=protected-access

    one = make(loop, asked)
    if asked.role == "front":
        one.pool.on_fault = fault
    else:
        one.on_fault = fault
    await one.start()
    loop.add_reader(0, lambda: os.read(0, 4096) or end(0))
    loop.add_signal_handler(signal.SIGTERM, end, 0)
    os.write(1, READY % getattr(one, "port", 0))
    status = await over
    loop.remove_reader(0)
    one.close()
    return status


def main(asked):
    signal.signal(signal.SIGINT, signal.SIG_IGN)
    more_files()
    collect_seldom()
    try:
        return asyncio.run(run(asked))
    except (cluster.BadCluster, file.BadFile, tls.BadCertificate) as fault:
        say(str(fault))
        return REFUSED
    except OSError as fault:
        say(f"{fault.filename or asked.role}: {fault.strerror or fault}")
        return FAULT
