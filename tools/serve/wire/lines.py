"""A connection of lines, with a limit on their length."""

import asyncio

MOST_FIRST = 4096  # bytes of the lines by which both ends say who they are
MOST_LINE = 64 << 20
MOST_UNSENT = 64 << 20  # bytes that wait for a connection; mail beyond is lost


class Lines(asyncio.Protocol):
    """Hands lines on as they come. `most` is the longest that may come next."""

    most = MOST_FIRST

    def __init__(self):
        self.transport, self.rest = None, []
        self.length = 0

    def connection_made(self, transport):
        self.transport = transport
        self.made()

    def data_received(self, data):
        if not self.rest and data[-1:] == b"\n" and self.on_whole(data):
            return
        lines = data.split(b"\n")
        last = lines.pop()
        if lines:
            if self.rest:
                lines[0] = b"".join(self.rest) + lines[0]
                self.rest, self.length = [], 0
            self.on_lines(lines)
        if last:
            self.rest.append(last)
            self.length += len(last)
            if self.length > self.most:
                self.refuse("a line is too long")

    def connection_lost(self, _):
        self.lost()

    def refuse(self, why):
        """Ends the connection, since what came over it is no line of a peer."""
        del why
        self.rest, self.length = [], 0
        self.transport.abort()

    def send(self, text):
        """Sends bytes, unless too many wait already: then they are lost, as mail may be."""
        if self.transport.get_write_buffer_size() < MOST_UNSENT and not self.transport.is_closing():
            self.transport.write(text)

    # ---- for those who use it

    def made(self):
        """The connection is there."""

    def on_lines(self, lines):
        """Whole lines came."""

    def on_whole(self, data):
        """Whole lines came, with their line feeds. Takes all of them, or says that it takes none."""
        del data
        return False

    def lost(self):
        """The connection is gone."""
