"""Keeps the processes of a store alive until it is interrupted."""

import asyncio
import os
import signal
import subprocess
import sys
import time

from keeper import role

HERE = os.path.dirname(os.path.dirname(os.path.abspath(__file__)))
SOONEST, LATEST, STEADY = 0.1, 5.0, 10.0  # seconds between two beginnings, and after which one counts as steady
LAST = 10.0  # seconds in which a process has to end in order


class Process:
    """One process, which is begun again where it ends."""

    def __init__(self, keeper, name, words):
        self.keeper, self.name, self.words = keeper, name, words
        self.wait, self.began, self.process = SOONEST, 0.0, None
        self.is_ready, self.port = False, 0

    def begin(self):
        self.began, self.is_ready = time.monotonic(), False
        self.process = subprocess.Popen(
            [sys.executable, "-B", HERE, *self.words],
            stdin=subprocess.PIPE,
            stdout=subprocess.PIPE,
            bufsize=0,
            start_new_session=True,
        )
        self.out = self.process.stdout.fileno()
        self.keeper.loop.add_reader(self.out, self.read)

    def read(self):
        piece = os.read(self.out, 4096)
        if piece:
            self.is_ready, self.port = True, int(piece.split()[1])
            self.keeper.is_ready(self)
            return
        self.keeper.loop.remove_reader(self.out)
        self.process.stdin.close()
        self.process.stdout.close()
        self.keeper.ended(self, self.process.wait())

    def end(self):
        """Ends it in order: its input ends."""
        if self.process and self.process.poll() is None:
            self.keeper.loop.remove_reader(self.out)
            self.process.stdin.close()
            try:
                self.process.wait(LAST)
            except subprocess.TimeoutExpired:
                self.process.kill()
                self.process.wait()


class Keeper:
    """All processes of a store on this machine."""

    def __init__(self, loop, on_ready):
        self.loop, self.on_ready = loop, on_ready
        self.processes, self.over = [], loop.create_future()
        self.was_ready = False

    def add(self, name, words):
        self.processes.append(Process(self, name, words))

    def is_ready(self, _):
        if not self.was_ready and all(one.is_ready for one in self.processes):
            self.was_ready = True
            self.on_ready(self)

    def ended(self, one, status):
        """A process ended that was not told to."""
        if self.over.done():
            return
        if status == role.REFUSED:
            self.over.set_result(2)
            return
        if time.monotonic() - one.began > STEADY:
            one.wait = SOONEST
        said = f"signal {-status}" if status < 0 else f"status {status}"
        role.say(f"{one.name} ended ({said}) and begins again in {one.wait:g} s")
        self.loop.call_later(one.wait, self.again, one)
        one.wait = min(one.wait * 2, LATEST)

    def again(self, one):
        if not self.over.done():
            one.begin()

    async def run(self):
        for number in (signal.SIGINT, signal.SIGTERM, signal.SIGHUP):
            self.loop.add_signal_handler(number, self.stop, number)
        for one in self.processes:
            one.begin()
        status = await self.over
        for one in reversed(self.processes):  # fronts first, then nodes
            one.end()
        return status

    def stop(self, number):
        if not self.over.done():
            self.over.set_result(0 if number == signal.SIGINT else 128 + number)
