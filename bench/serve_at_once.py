"""A server that answers each request at once, to see how many the driver of bench/serve can ask.

    serve_at_once.py resp|grpc

It prints its port.
"""

import asyncio
import sys

import serve_driver as driver
from serve_driver import frame, text


class Resp(asyncio.Protocol):
    """Answers what the driver asks, which comes whole."""

    def connection_made(self, transport):
        self.transport = transport

    def data_received(self, data):
        self.transport.write(b"+OK\r\n" if data[:2] == b"*3" else b"$-1\r\n")


class Grpc(asyncio.Protocol):
    """Answers a call behind its last frame, with a header as long as etcd's."""

    def connection_made(self, transport):
        self.transport, self.left = transport, b""
        transport.write(frame(driver.SETTINGS, 0, 0))

    def data_received(self, data):
        self.left += data
        if self.left.startswith(driver.PREFACE):
            self.left = self.left[len(driver.PREFACE) :]
        while len(self.left) >= 9:
            length = int.from_bytes(self.left[:3], "big")
            if len(self.left) < 9 + length:
                return
            kind, flags, stream = self.left[3], self.left[4], int.from_bytes(self.left[5:9], "big")
            self.left = self.left[9 + length :]
            if kind == driver.DATA and flags & driver.END_STREAM:
                self.transport.write(
                    frame(driver.HEADERS, driver.END_HEADERS, stream, b"\x88\x0f\x10" + text(b"application/grpc"))
                    + frame(driver.DATA, 0, stream, b"\0\0\0\0\x1e" + b"\x0a\x1c" + b"x" * 28)
                    + frame(driver.HEADERS, driver.END_HEADERS | driver.END_STREAM, stream, b"\0" + text(b"grpc-status") + text(b"0"))
                )


async def main():
    made = {"resp": Resp, "grpc": Grpc}[sys.argv[1]]
    server = await asyncio.get_running_loop().create_server(made, "127.0.0.1", 0)
    print(server.sockets[0].getsockname()[1], flush=True)
    await server.serve_forever()


if __name__ == "__main__":
    asyncio.run(main())
