"""One connection of a redis client. Its requests are answered in order, one after another."""

import asyncio

from front import commands, pool, resp

MOST_UNREAD = 1 << 20  # bytes of answers that a caller has not taken, before no more of it is read
MOST_QUEUED = 1 << 20  # bytes of requests behind the one that is under way


class Connection(asyncio.Protocol):
    """Reads requests while none is under way; what comes meanwhile waits."""

    def __init__(self, front):
        self.front, self.number = front, 0
        self.requests = resp.Requests()
        self.process, self.name = None, b""
        self.under_way, self.olds, self.at = None, [], 0
        self.is_waiting, self.is_leaving, self.is_paused = False, False, False

    # ---- the transport

    def connection_made(self, transport):
        self.transport = transport
        transport.set_write_buffer_limits(high=MOST_UNREAD)
        if not self.front.enter(self):
            transport.write(resp.error("ERR max number of clients reached"))
            transport.close()
            self.is_leaving = True

    def connection_lost(self, _):
        self.is_leaving = True
        self.front.connections.discard(self)

    def pause_writing(self):
        self.is_paused = True
        self.pause()

    def resume_writing(self):
        self.is_paused = False
        self.go_on()

    def pause(self):
        if not self.transport.is_closing():
            self.transport.pause_reading()

    def data_received(self, data):
        if self.is_leaving:
            return
        self.requests.feed(data)
        if self.is_waiting or self.is_paused:
            if len(self.requests.left) > MOST_QUEUED:
                self.pause()
        else:
            self.go_on()

    # ---- requests

    def go_on(self):
        """Answers requests until one has to be waited for."""
        said = []
        while not (self.is_waiting or self.is_paused or self.is_leaving):
            try:
                words = self.requests.next()
            except resp.Closed:
                self.leave(b"".join(said))
                return
            except resp.BadRequest as fault:
                said.append(resp.error(f"ERR {fault}"))
                self.leave(b"".join(said))
                return
            if words is None:
                break
            if words:
                answer = commands.answer(self, words)
                if isinstance(answer, commands.Asked):
                    # answers before it are not to wait for it
                    self.write(said)
                    said = []
                    self.begin(answer)
                elif answer is None:
                    self.is_waiting = True
                else:
                    said.append(answer)
        self.write(said)
        if self.is_leaving:
            self.transport.close()
        elif not (self.is_waiting or self.is_paused or self.transport.is_closing()):
            self.transport.resume_reading()

    def write(self, said):
        if said and not self.transport.is_closing():
            self.transport.write(b"".join(said))

    def leave(self, said):
        """Says a last word, and closes."""
        self.is_leaving = True
        self.write([said])
        self.transport.close()

    def begin(self, asked):
        """Asks the first operation of a command."""
        self.is_waiting, self.under_way, self.olds = True, asked, []
        self.ask()

    def ask(self):
        if self.process is None:
            self.process = self.front.pool.new_process()
        self.front.pool.ask(self.process, self.under_way.some[len(self.olds)], self.replied)

    def replied(self, old):
        """An operation is answered, or is not: then the command is not, and those behind it are not asked."""
        if isinstance(old, pool.Unanswered):
            if old is pool.TIMEOUT:
                self.process = None  # what is asked next is of another process
            self.finish(resp.error(old.said))
            return
        self.olds.append(old)
        if len(self.olds) < len(self.under_way.some):
            self.ask()
        else:
            self.finish(self.under_way.answer(self.olds))

    def finish(self, said):
        """Answers the request that was waited for, and goes on with the next one."""
        self.under_way, self.is_waiting = None, False
        self.write([said])
        if self.requests.at < len(self.requests.left):
            # (not from here: answers would be nested as deep as requests are queued)
            self.is_waiting = True
            self.front.loop.call_soon(self.next)
        elif not (self.is_paused or self.is_leaving or self.transport.is_closing()):
            self.transport.resume_reading()

    def next(self):
        self.is_waiting = False
        if not self.is_leaving:
            self.go_on()
