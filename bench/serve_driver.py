"""A load for bench/serve: connections that each ask the next request when the last is answered.

    serve_driver.py resp|grpc PORT[,PORT ..] CONNECTIONS SECONDS set|get

It prints one line of JSON: requests, seconds, and their latency in milliseconds. The redis protocol
is spoken as redis has it; etcd is asked by its own protocol, gRPC over HTTP/2, of which just what a
put and a linearizable get need is here. The first second is not counted.
"""

import asyncio
import json
import os
import struct
import sys
import time

KEYS, WARM = 10_000, 1.0
VALUE = b"x" * 64
PREFACE = b"PRI * HTTP/2.0\r\n\r\nSM\r\n\r\n"
DATA, HEADERS, RESET, SETTINGS, PING, GO_AWAY, WINDOW = 0, 1, 3, 4, 6, 7, 8
END_STREAM, END_HEADERS, ACK = 1, 4, 1
CLOSE_TO_FULL = 1 << 20


class Clock:
    """Latencies of all connections, from the end of the warm-up on."""

    def __init__(self, kind):
        self.kind, self.begin, self.times, self.failed = kind, time.perf_counter() + WARM, [], 0
        self.count = os.getpid() * 7919

    def key(self):
        self.count += 1
        return b"key:%010d" % (self.count * 2654435761 % KEYS)

    def done(self, began):
        now = time.perf_counter()
        if now >= self.begin:
            self.times.append(now - began)


class Resp(asyncio.Protocol):
    """A connection that speaks as redis does."""

    def __init__(self, clock):
        self.clock, self.left = clock, b""

    def connection_made(self, transport):
        self.transport = transport
        self.ask()

    def ask(self):
        key = self.clock.key()
        words = [b"SET", key, VALUE] if self.clock.kind == "set" else [b"GET", key]
        self.began = time.perf_counter()
        self.transport.write(b"*%d\r\n" % len(words) + b"".join(b"$%d\r\n%s\r\n" % (len(w), w) for w in words))

    def data_received(self, data):
        self.left += data
        end = self.left.find(b"\r\n")
        if end < 0 or (self.left[:1] == b"$" and self.left[1:2] != b"-" and len(self.left) < end + 4 + int(self.left[1:end])):
            return
        if self.left[:1] == b"-":
            self.clock.failed += 1
        self.left = b""
        self.clock.done(self.began)
        self.ask()


def frame(kind, flags, stream, said=b""):
    return struct.pack(">I", len(said))[1:] + bytes([kind, flags]) + struct.pack(">I", stream) + said


def text(said):
    return bytes([len(said)]) + said


def headers(path):
    """The headers of a call, each as a literal that no table keeps."""
    return (
        b"\x83\x86" + b"\x04" + text(path) + b"\x01" + text(b"localhost")
        + b"\x0f\x10" + text(b"application/grpc") + b"\x00" + text(b"te") + text(b"trailers")
    )  # fmt: skip


class Grpc(asyncio.Protocol):
    """A connection that calls etcd."""

    def __init__(self, clock):
        self.clock, self.left, self.stream, self.taken = clock, b"", -1, 0
        name = b"Put" if clock.kind == "set" else b"Range"
        self.headers = headers(b"/etcdserverpb.KV/" + name)

    def connection_made(self, transport):
        self.transport = transport
        transport.write(PREFACE + frame(SETTINGS, 0, 0))
        self.ask()

    def ask(self):
        key = self.clock.key()
        said = b"\x0a" + text(key)
        if self.clock.kind == "set":
            said += b"\x12" + text(VALUE)
        self.stream, self.is_answered = self.stream + 2, False
        self.began = time.perf_counter()
        self.transport.write(
            frame(HEADERS, END_HEADERS, self.stream, self.headers)
            + frame(DATA, END_STREAM, self.stream, b"\0" + struct.pack(">I", len(said)) + said)
        )

    def data_received(self, data):
        self.left += data
        while len(self.left) >= 9:
            length = int.from_bytes(self.left[:3], "big")
            if len(self.left) < 9 + length:
                return
            kind, flags = self.left[3], self.left[4]
            stream = int.from_bytes(self.left[5:9], "big")
            said, self.left = self.left[9 : 9 + length], self.left[9 + length :]
            self.take(kind, flags, stream, said)

    def take(self, kind, flags, stream, said):
        if kind == SETTINGS and not flags & ACK:
            self.transport.write(frame(SETTINGS, ACK, 0))
        elif kind == PING and not flags & ACK:
            self.transport.write(frame(PING, ACK, 0, said))
        elif kind == GO_AWAY:
            raise ConnectionError("the server goes away")
        elif kind == DATA:
            self.is_answered = self.is_answered or len(said) > 5
            self.taken += len(said)
            if self.taken > 10_000:
                self.transport.write(frame(WINDOW, 0, 0, struct.pack(">I", self.taken)))
                self.taken = 0
        if stream == self.stream and (kind == RESET or (kind in (DATA, HEADERS) and flags & END_STREAM)):
            self.clock.failed += not self.is_answered
            self.clock.done(self.began)
            self.ask()


async def drive(protocol, ports, connections, seconds, kind):
    loop, clock = asyncio.get_running_loop(), Clock(kind)
    made = {"resp": Resp, "grpc": Grpc}[protocol]
    made_connections = [
        await loop.create_connection(lambda: made(clock), "127.0.0.1", ports[k % len(ports)]) for k in range(connections)
    ]
    clock.begin = time.perf_counter() + WARM
    await asyncio.sleep(WARM + seconds)
    times = sorted(clock.times)
    for transport, _ in made_connections:
        transport.abort()
    at = lambda share: round(times[int(share * (len(times) - 1))] * 1000, 3) if times else None  # noqa: E731
    used = os.times()
    return {
        "a second": round(len(times) / seconds, 1), "median": at(0.5), "99th": at(0.99), "failed": clock.failed,
        "driver seconds": round(used.user + used.system, 2),
    }  # fmt: skip


if __name__ == "__main__":
    protocol_, ports_, connections_, seconds_, kind_ = sys.argv[1:]
    numbers = [int(port) for port in ports_.split(",")]
    print(json.dumps(asyncio.run(drive(protocol_, numbers, int(connections_), float(seconds_), kind_))))
