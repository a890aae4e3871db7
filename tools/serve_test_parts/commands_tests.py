"""Commands, their errors, and clients of redis that others made."""

import os
import shutil
import subprocess
import sys
import time

import resp_client
import stores
from stores import expect

from front import escape, resp

# Requests and their replies, one after another; an error is its text.
TALK = [
    (["PING"], b"PONG"),
    (["ping", "x"], b"x"),
    (["ECHO", b"\0\xff"], b"\0\xff"),
    (["SET", "a", "x"], b"OK"),
    (["GET", "a"], b"x"),
    (["GET", "none"], None),
    (["SET", "a", b"\0 \r\n%\xff", "GET"], b"x"),
    (["GET", "a"], b"\0 \r\n%\xff"),
    (["SET", "a", "y", "NX"], None),
    (["SET", "b", "y", "nx"], b"OK"),
    (["SET", "b", "z", "NX", "GET"], b"y"),
    (["SET", "empty", ""], b"OK"),
    (["GET", "empty"], b""),
    (["SET", "", "empty key"], b"OK"),
    (["GET", ""], b"empty key"),
    (["SETNX", "c", "1"], 1),
    (["SETNX", "c", "2"], 0),
    (["CAS", "c", "1", "2"], 1),
    (["CAS", "c", "1", "3"], 0),
    (["CAS", "none", "1", "3"], 0),
    (["GET", "c"], b"2"),
    (["EXISTS", "a", "b", "none", "a"], 3),
    (["DEL", "a", "none", "c"], 2),
    (["EXISTS", "a"], 0),
    (["SELECT", "0"], b"OK"),
    (["SELECT", "1"], "ERR DB index is out of range"),
    (["SELECT", "x"], "ERR value is not an integer or out of range"),
    (["HELLO", "3"], "NOPROTO unsupported protocol version"),
    (["HELLO", "x"], "ERR Protocol version is not an integer or out of range"),
    (["CLIENT", "SETNAME", "me"], b"OK"),
    (["CLIENT", "GETNAME"], b"me"),
    (["CLIENT", "KILL"], "ERR unknown subcommand 'KILL'. Try CLIENT HELP."),
    (["CONFIG", "GET", "save"], [b"save", b""]),
    (["CONFIG", "SET", "save", ""], "ERR unknown subcommand 'SET'. Try CONFIG HELP."),
    (["COMMAND", "COUNT"], 18),
    (["COMMAND", "INFO", "get"], [[b"get", 2, [], 1, 1, 1]]),
    (["SET", "a", "x", "EX", "10"], "ERR syntax error"),
    (["SET", "a", "x", "PX", "10"], "ERR syntax error"),
    (["SET", "a", "x", "XX"], "ERR syntax error"),
    (["SET", "a", "x", "KEEPTTL"], "ERR syntax error"),
    (["GET"], "ERR wrong number of arguments for 'get' command"),
    (["SET", "a"], "ERR wrong number of arguments for 'set' command"),
    (["MSET", "a", "b"], "ERR unknown command 'MSET', with args beginning with: 'a' 'b' "),
    (["SET", "a", "v" * 256], b"OK"),
    (["SET", "a", "v" * 257], "ERR value too long: 257 bytes percent-encoded, and a value has at most 256"),
    (["SET", "k" * 62, "v"], b"OK"),
    (["SET", "k" * 63, "v"], "ERR key too long: 63 bytes percent-encoded, and a key has at most 62"),
    (["GET", "k" * 62], b"v"),
    (["SET", "a", "v" * 1_000_000], "ERR an argument is too long: a key has at most 62 bytes percent-encoded, and a value 256"),
    (["POSITION", "user:1"], 1719235955),
    (["ORDER", "split", "0.1"], "ERR the form is: split GROUP AT"),
    (["ORDER", "join", "9", "0.1"], "ERR a node is a number from 1 to 3"),
]


def said(client, words):
    try:
        return client.ask(*words)
    except resp_client.Failed as fault:
        return str(fault)


def talks(store):
    client = store.client()
    for words, reply in TALK:
        got = said(client, words)
        expect(got == reply, f"{[w[:40] for w in words]}: {got!r} and not {reply!r}")
    pipelined(client)
    info = client.ask("INFO").decode()
    expect("group0.1:leader=" in info and "node3:state=up" in info, f"INFO: {info}")
    expect(client.ask("QUIT") == b"OK", "QUIT")
    expect(client.file.readline() == b"", "QUIT leaves the connection open")
    client.close()


def pipelined(client):
    """Requests in one piece, and in pieces of one byte, are answered in order."""
    wanted = []
    for k in range(50):
        client.send("SET", f"p{k}", k)
        client.send("GET", f"p{k}")
        client.send("ECHO", k)
        wanted += [b"OK", b"%d" % k, b"%d" % k]
    expect([client.reply() for _ in wanted] == wanted, "pipelined requests")
    for byte in b"*2\r\n$3\r\nGET\r\n$2\r\np7\r\nPING\r\n":
        client.peer.sendall(bytes([byte]))
    expect([client.reply(), client.reply()] == [b"7", b"PONG"], "a request of one byte at a time")


def others(store):
    """redis-cli, redis-benchmark and python3-redis, where they are there."""
    port = str(store.port)
    if shutil.which("redis-cli"):
        out = subprocess.run(["redis-cli", "-p", port, "SET", "cli", "a b"], stdout=subprocess.PIPE, check=False).stdout
        out += subprocess.run(["redis-cli", "-p", port, "GET", "cli"], stdout=subprocess.PIPE, check=False).stdout
        expect(out == b"OK\na b\n", f"redis-cli: {out!r}")
        words = ["redis-benchmark", "-p", port, "-t", "set,get", "-n", "200", "-c", "10", "-q", "--csv"]
        out = subprocess.run(words, stdout=subprocess.PIPE, stderr=subprocess.DEVNULL, check=False)
        expect(out.returncode == 0 and b'"GET"' in out.stdout, f"redis-benchmark: {out.stdout!r}")
    else:
        print("redis-tools are not there: a small client alone asks")
    if os.path.isdir("/usr/lib/python3/dist-packages/redis"):
        script = (
            "import redis; r = redis.Redis(port=%s); r.set('py', b'\\xff'); assert r.get('py') == b'\\xff';"
            "p = r.pipeline(transaction=False); p.set('q', 1).get('q'); assert p.execute() == [True, b'1'];"
            "assert r.set('q', 2, nx=True) is None and r.delete('q', 'py') == 2" % port
        )
        out = subprocess.run(["/usr/bin/python3", "-c", script], stderr=subprocess.PIPE, check=False)
        expect(out.returncode == 0, f"python3-redis: {out.stderr.decode()}")
    else:
        print("python3-redis is not there: a small client alone asks")


def commands(program):
    """All commands; the store goes on where it was; its files are one lawful run."""
    with stores.Store(program) as store:
        began = time.monotonic()
        store.start()
        print(f"a new store is ready in {time.monotonic() - began:.1f} s")
        talks(store)
        others(store)
        store.stop()
        store.start()
        client = store.client()
        expect(client.ask("GET", "b") == b"y", "a second start has lost what the first one had")
        orders(store, client)
        store.stop()
        status, told, _, _ = store.gather()
        expect(status == 0, told)
        gathered(store)


def gathered(store):
    """A journal that is too small for all rows has a beginning of them; the check of the store says yes."""
    _, whole, journal, _ = store.gather()
    with open(journal, "rb") as file:
        rows = file.read()
    _, told, _, _ = store.gather("--most", "20000")
    with open(journal, "rb") as file:
        some = file.read()
    expect("are left out" in told and len(some) <= 20000 and rows.startswith(some), f"a small journal: {told}, of {whole}")
    words = [sys.executable, "-B", stores.SERVE, "--program", store.program, "--dir", store.files, "--check"]
    done = subprocess.run(words, stdout=subprocess.PIPE, check=False)
    expect(done.returncode == 0 and b"history: linearizable" in done.stdout and b"audit: lawful" in done.stdout, f"{done}")


def orders(store, client):
    """Orders and their results, as words of the script and as a command."""
    script = os.path.join(stores.TOOLS, "order")
    for words, status, out in [
        (["split", "0.1", "1344339968"], 0, b"done\n"),
        (["merge", "0.1"], 0, b"committed\n"),
        (["merge", "0.1"], 1, b""),
        (["what", "0.1"], 2, b""),
    ]:
        done = subprocess.run(
            [script, str(store.port), *words], stdout=subprocess.PIPE, stderr=subprocess.PIPE, check=False
        )
        expect(done.returncode == status and done.stdout.endswith(out), f"order {words}: {done}")
    expect("no-neighbour" in said(client, ["ORDER", "merge", "0.1"]), "an order that is refused says why")


def escapes(_):
    """Keys and values of any bytes have a text of the store, and come back."""
    for text in [b"", b"a", b"a b", b"%", bytes(range(80)), "\u3053".encode(), b"user:1"]:
        value = escape.value(text)
        expect(escape.plain(value) == text and 1 <= len(value) <= 256, f"value {text!r}")
        expect(all(33 <= byte <= 126 for byte in value.encode()), f"value {text!r}")
    places = {escape.position(escape.key(b"user:%d" % k)) >> 24 for k in range(2000)}
    expect(len(places) == escape.KINDS, f"keys that begin alike stand at {len(places)} first bytes")


def quotes(_):
    """Lines that somebody types have words with quotation marks."""
    requests = resp.Requests()
    requests.feed(b'set "a b" "\\x00\\n\\"" \'it\\\'s\'\r\n\r\nget x\n')
    expect(requests.next() == [b"set", b"a b", b'\0\n"', b"it's"], "quotation marks")
    expect(requests.next() == [b"get", b"x"] and requests.next() is None, "a second line")


TESTS = [escapes, quotes, commands]
