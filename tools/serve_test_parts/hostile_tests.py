"""Bytes that nobody should send: to the port of redis clients, and to the ports of nodes."""

import json
import os
import resource
import socket
import time

import stores
from stores import expect

from keeper import folder as folders


def talk(port, data, seconds=5):
    """Sends bytes, and returns all that comes until the other end closes, or nothing comes for a while."""
    with socket.create_connection(("127.0.0.1", port), seconds) as peer:
        peer.settimeout(seconds)
        said = b""
        try:
            peer.sendall(data)
            while True:
                piece = peer.recv(65536)
                if not piece:
                    return said, True
                said += piece
        except socket.timeout:
            return said, False
        except OSError:
            return said, True


def bad_requests(store):
    """What is no request is answered as redis does, and closed; a page of a browser is not answered at all."""
    for data, said in [
        (b"POST / HTTP/1.1\r\nHost: localhost\r\n\r\n", b""),
        (b"GET a\r\nHost: localhost\r\nSET a b\r\n", b"$-1\r\n"),
        (b"*x\r\n", b"-ERR Protocol error: invalid multibulk length\r\n"),
        (b"*2000000\r\n", b"-ERR Protocol error: invalid multibulk length\r\n"),
        (b"*1\r\n$1000000000\r\n", b"-ERR Protocol error: invalid bulk length\r\n"),
        (b"*1\r\n$-1\r\n", b"-ERR Protocol error: invalid bulk length\r\n"),
        (b"*1\r\nPING\r\n", b"-ERR Protocol error: expected '$', got 'P'\r\n"),
        (b'get "a\r\n', b"-ERR Protocol error: unbalanced quotes in request\r\n"),
        (b"x" * 70_000, b"-ERR Protocol error: too big inline request\r\n"),
    ]:
        got = talk(store.port, data)
        expect(got == (said, True), f"{data[:40]!r}: {got!r}")


def memory_of(pid):
    with open(f"/proc/{pid}/statm", encoding="ascii") as file:
        return int(file.read().split()[1]) * resource.getpagesize()


def long_lines(store):
    """An argument of 400 MB is passed over, without being kept."""
    pid = stores.processes_of(store.files)["front-1.inputs"]
    before, length = memory_of(pid), 400_000_000
    with socket.create_connection(("127.0.0.1", store.port), 60) as peer:
        peer.settimeout(60)
        peer.sendall(b"*2\r\n$4\r\nECHO\r\n$%d\r\n" % length)
        piece, left = b"x" * (1 << 20), length
        while left:
            left -= peer.send(piece[: min(left, len(piece))])
        peer.sendall(b"\r\nPING\r\n")
        said = b""
        while not said.endswith(b"+PONG\r\n"):
            piece = peer.recv(65536)
            expect(piece, f"the connection ended behind a long argument: {said!r}")
            said += piece
        expect(said.startswith(b"-ERR an argument is too long"), f"a long argument: {said!r}")
    expect(memory_of(pid) - before < 50 << 20, "a long argument is kept")


def idle_connections(store):
    """1,000 connections, each with half a line, take nobody's turn."""
    _, most = resource.getrlimit(resource.RLIMIT_NOFILE)
    resource.setrlimit(resource.RLIMIT_NOFILE, (most, most))
    peers = [socket.create_connection(("127.0.0.1", store.port), 10) for _ in range(1000)]
    try:
        for peer in peers:
            peer.sendall(b"*2\r\n$3\r\nGE")
        client = store.client()
        expect(client.ask("SET", "idle", "1") == b"OK", "SET beside idle connections")
        peers[500].sendall(b"T\r\n$4\r\nidle\r\n")
        expect(peers[500].recv(100) == b"$1\r\n1\r\n", "a line that goes on later")
        client.close()
    finally:
        for peer in peers:
            peer.close()


def strangers(store):
    """Who does not know the secret sends no mail, whatever its bytes."""
    with open(os.path.join(store.files, folders.CLUSTER), encoding="ascii") as file:
        nodes = json.load(file)["nodes"]
    rows = store.client().ask("INFO", "nodes")
    for number, node in nodes.items():
        port = int(node["address"].split(":")[1])
        mail = b'1 0 {"body":{"Nack":{"group":"0.1","promised":[9,1]}},"from":2,"to":%s}\n' % number.encode()
        for data in [mail, b"node 2 %s %s\n%s" % (b"0" * 32, b"0" * 64, mail), b"x" * 100_000, b"\n\n\n", bytes(range(256)) * 4]:
            said, closed = talk(port, data)
            expect(closed and (not said or said.startswith(b"scatter peer 1 ")), f"node {number} answers {said!r}")
        with open(folders.inputs_of(store.files, "node", number), "rb") as file:
            expect(b"Nack" not in file.read(), f"node {number} took mail of a stranger")
    del rows


def hostile(program):
    with stores.Store(program) as store:
        store.start()
        store.client().ask("SET", "x", "1")
        for test in (bad_requests, long_lines, idle_connections, strangers):
            began = time.monotonic()
            test(store)
            print(f"  {test.__name__} ({time.monotonic() - began:.1f} s)")
        store.stop()
        status, said, _, _ = store.gather()
        expect(status == 0, said)


TESTS = [hostile]
