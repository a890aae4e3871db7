"""Connections to the nodes: one from each machine and each front to each node, made anew where it is lost."""

import asyncio
import random

from wire import identity, lines

SOONEST, LATEST = 0.05, 1.0  # seconds between two tries to connect


class Caller(lines.Lines):
    """The end that connects. It is ready once the node has shown that it is one."""

    def __init__(self, link):
        super().__init__()
        self.link, self.first, self.own = link, None, identity.word()
        self.is_ready = False

    def on_lines(self, said):
        while said and not self.is_ready:
            line = said.pop(0)
            if self.first is None:
                self.first = line
                second = self.link.secret.second(line, self.own, self.link.me)
                if second is None:
                    return self.refuse("it is no node")
                self.transport.write(second + b"\n")
            elif self.link.secret.is_called(
                self.first, self.own, self.link.me, self.link.node, line
            ):
                self.is_ready, self.most = True, lines.MOST_LINE
                self.link.connected(self)
            else:
                return self.refuse("it does not know the secret")
        if said:
            self.link.on_lines(said)
        return None

    def made(self):
        # without TLS there is no certificate, and a node that is not the one that was called is none
        shown = identity.number_of_certificate(self.transport)
        if shown is not None and shown != self.link.node:
            self.refuse("its certificate is of another node")

    def lost(self):
        self.link.lost(self)


class Link:
    """The way to one node. What is sent while it is down is lost."""

    def __init__(self, loop, me, node, address, secret, tls, faults):
        self.loop, self.me, self.node, self.address = loop, me, node, address
        self.secret, self.tls, self.faults = secret, tls, faults
        self.peer, self.wait, self.is_over = None, SOONEST, False
        self.on_up = self.on_lines = lambda *_: None
        self.task = loop.create_task(self.keep())

    async def keep(self):
        """Connects, and connects anew at intervals that grow with chance."""
        self.gone = asyncio.Event()
        while not self.is_over:
            self.gone.clear()
            try:
                host, port = self.address
                await asyncio.wait_for(
                    self.loop.create_connection(lambda: Caller(self), host, port, ssl=self.tls), 5
                )
                await self.gone.wait()
            except (OSError, asyncio.TimeoutError):
                pass
            await asyncio.sleep(self.wait * random.uniform(0.5, 1))
            self.wait = min(self.wait * 2, LATEST)

    def connected(self, peer):
        self.peer, self.wait = peer, SOONEST
        self.on_up()

    def lost(self, peer):
        if self.peer is peer:
            self.peer = None
        self.gone.set()

    @property
    def is_up(self):
        return self.peer is not None

    def send(self, text):
        """Sends whole lines, where there is a connection."""
        if self.faults:
            self.faults.send(self.node, text, self.send_now)
        elif self.peer:
            self.peer.send(text)

    def send_now(self, text):
        if self.peer:
            self.peer.send(text)

    def close(self):
        self.is_over = True
        self.task.cancel()
        if self.peer:
            self.peer.transport.abort()
