"""A front: it listens for redis clients, has the clients of the store, and asks nodes for their state."""

import asyncio
import itertools
import json
import time

from front import connection, orders, pool, resp
from front import info as infos
from wire import identity, links

MOST_CONNECTIONS = 10_000
WAIT = 2.0  # seconds that a node may take to say its state


class Front:
    """What redis clients talk to."""

    def __init__(self, loop, number, cluster, words, path, tls, asked):
        self.loop, self.number, self.cluster, self.tls = loop, number, cluster, tls
        self.pool = pool.Pool(loop, number, cluster, words, path, asked.timeout)
        self.binds, self.port, self.version = asked.bind, asked.port, asked.version
        self.connections, self.numbers = set(), itertools.count(1)
        self.links, self.questions, self.ids = {}, {}, itertools.count(1)
        self.began = time.monotonic()

    async def start(self):
        self.pool.replay()
        secret = identity.Secret(self.cluster.read_secret(), self.cluster.scenario)
        me = b"front %d" % self.number
        for node, machine in self.cluster.machines.items():
            link = links.Link(self.loop, me, node, machine.address, secret, self.tls[1], None)
            link.on_lines = self.on_lines
            self.links[node] = link
        self.pool.links = self.links
        self.server = await self.loop.create_server(
            lambda: connection.Connection(self), self.binds, self.port, reuse_address=True, backlog=1024
        )
        self.port = self.server.sockets[0].getsockname()[1]

    def enter(self, one):
        """Takes a new connection, unless there are too many."""
        one.number = next(self.numbers)
        if len(self.connections) >= MOST_CONNECTIONS:
            return False
        self.connections.add(one)
        return True

    # ---- lines of nodes

    def on_lines(self, lines):
        for line in lines:
            if line[:1].isdigit():
                self.pool.got(line)
            else:
                _, number, said = line.split(b" ", 2)
                question = self.questions.pop(int(number), None)
                if question and not question.done():
                    question.set_result(json.loads(said))

    async def ask(self, node, word, said=b"", seconds=WAIT):
        """Asks a node something that is no mail. Gives nothing where it does not answer in time."""
        number, question = next(self.ids), self.loop.create_future()
        self.questions[number] = question
        self.links[node].send(b"%s %d %s\n" % (word, number, said))
        try:
            return await asyncio.wait_for(question, seconds)
        except asyncio.TimeoutError:
            return None
        finally:
            self.questions.pop(number, None)

    async def states(self):
        """What each node says of itself, or nothing, by its number."""
        up = [node for node, link in self.links.items() if link.is_up]
        said = await asyncio.gather(*(self.ask(node, b"state") for node in up))
        return {**dict.fromkeys(self.links), **dict(zip(up, said))}

    # ---- commands that ask nodes

    def later(self, one, task):
        """Answers a connection with what a task gives."""

        async def answer():
            try:
                said = await task
            except Exception as fault:  # pylint: disable=broad-except
                said = resp.error(f"ERR {type(fault).__name__}: {fault}")
            one.finish(said)

        self.loop.create_task(answer())

    def info(self, one, words):
        self.later(one, infos.answer(self, words))

    def order(self, one, words):
        self.later(one, orders.answer(self, words))

    def faults(self, one, words):
        self.later(one, orders.faults(self, words))

    def close(self):
        self.server.close()
        for one in list(self.connections):
            one.transport.close()
        for link in self.links.values():
            link.close()
        self.pool.close()
