"""A small client of redis, for where there is none: requests out, replies in."""

import socket
import time


class Failed(Exception):
    """An error that the store answers."""


class Client:
    """One connection. Replies are bytes, numbers, lists, or nothing."""

    def __init__(self, port, seconds=30):
        self.peer = socket.create_connection(("127.0.0.1", port), 10)
        self.peer.settimeout(seconds)
        self.file = self.peer.makefile("rb")

    def send(self, *words):
        said = [word if isinstance(word, bytes) else str(word).encode() for word in words]
        self.peer.sendall(b"*%d\r\n" % len(said) + b"".join(b"$%d\r\n%s\r\n" % (len(w), w) for w in said))

    def ask(self, *words):
        self.send(*words)
        return self.reply()

    def insist(self, *words, seconds=60):
        """Asks until there is an answer, where asking twice does no harm."""
        until = time.monotonic() + seconds
        while True:
            try:
                return self.ask(*words)
            except Failed as fault:
                if time.monotonic() > until or not str(fault).startswith(("TIMEOUT", "BUSY")):
                    raise

    def reply(self):
        line = self.file.readline()
        if not line.endswith(b"\r\n"):
            raise ConnectionError("the connection ended")
        kind, rest = line[:1], line[1:-2]
        if kind == b"+":
            return rest
        if kind == b"-":
            raise Failed(rest.decode("latin-1"))
        if kind == b":":
            return int(rest)
        if kind == b"$":
            if rest == b"-1":
                return None
            return self.file.read(int(rest) + 2)[:-2]
        if kind == b"*":
            return None if rest == b"-1" else [self.reply() for _ in range(int(rest))]
        raise ConnectionError(f"no reply: {line!r}")

    def close(self):
        self.file.close()
        self.peer.close()
