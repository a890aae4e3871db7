"""The server of tools/edit for edit_test, and what it must refuse."""

import contextlib
import http.client
import json
import os
import shutil
import socket
import subprocess
import sys
import threading
import time

HERE = os.path.dirname(os.path.dirname(os.path.abspath(__file__)))
SECONDS = 120  # a busy machine may be slow
# Long for any program: storms over a scenario that has much to lose.
LONG = "\n".join(
    [
        "scatter 1",
        "nodes 9",
        "group 0 1 2 3",
        "group 1342177280 4 5 6",
        "group 1744830464 7 8 9",
        *(
            line
            for client in range(1, 17)
            for line in (f"client {client}", *[f"put {client}{n} x" for n in range(500)], "end")
        ),
        *(f"go {client}" for client in range(1, 17)),
        *(f"storm {number} 1000000" for number in range(500)),
        "",
    ]
).encode()


class Checks:
    """What was compared, and what was not as it should be."""

    def __init__(self):
        self.count, self.faults = 0, []

    def same(self, what, shown, wanted):
        self.count += 1
        if shown != wanted:
            self.faults.append(f"{what}: {str(shown)[:400]!r}, and not {str(wanted)[:400]!r}")


def below(parent):
    """The processes whose parent is this one."""
    found = []
    for name in os.listdir("/proc"):
        if not name.isdecimal():
            continue
        try:
            with open(f"/proc/{name}/stat", encoding="latin-1") as file:
                state, above = file.read().rpartition(")")[2].split()[:2]
        except OSError:
            continue
        if int(above) == parent and state != "Z":
            found.append(int(name))
    return found


def is_alive(process):
    try:
        with open(f"/proc/{process}/stat", encoding="latin-1") as file:
            return file.read().rpartition(")")[2].split()[0] != "Z"
    except OSError:
        return False


def wait_for(is_so):
    """Whether something becomes so."""
    until = time.monotonic() + SECONDS / 10
    while time.monotonic() < until:
        if is_so():
            return True
        time.sleep(0.05)
    return is_so()


class Served:
    """A server of its own, whose temporary files stand in a folder."""

    def __init__(self, program, folder, *more):
        self.words = [sys.executable, os.path.join(HERE, "tools", "edit"), "--kept", program]
        self.words += ["--port", "0", *more]
        self.folder = folder

    def __enter__(self):
        self.process = subprocess.Popen(
            self.words,
            stdout=subprocess.PIPE,
            stderr=subprocess.DEVNULL,
            env={**os.environ, "TMPDIR": self.folder},
            text=True,
        )
        self.address = self.process.stdout.readline().strip()
        self.host = self.address.split("/")[2]
        self.token = self.address.split("/")[3]
        return self

    def __exit__(self, *_):
        self.process.terminate()
        self.process.wait(SECONDS)
        self.process.stdout.close()

    def ask(self, method, path, body=None, **headers):
        """The status and the text of an answer."""
        line = http.client.HTTPConnection(self.host, timeout=SECONDS)
        try:
            line.putrequest(method, path, skip_host="Host" in headers)
            for name, value in headers.items():
                line.putheader(name.replace("_", "-"), value)
            if body is not None:
                line.putheader("Content-Length", str(len(body)))
            line.endheaders()
            if body is not None:
                line.send(body)
            answer = line.getresponse()
            return answer.status, answer.read().decode()
        finally:
            line.close()

    def raw(self, data):
        """What comes back of some bytes, whose other end is closed then."""
        host, port = self.host.split(":")
        with socket.create_connection((host, int(port)), SECONDS) as line:
            line.sendall(data)
            line.shutdown(socket.SHUT_WR)
            found = b""
            while True:
                more = line.recv(65536)
                if not more:
                    return found
                found += more

    def children(self):
        """How many processes below the server have a session of their own, as each call has."""
        return len(below(self.process.pid))

    def get(self, name):
        status, said = self.ask("GET", f"/{self.token}/{name}")
        return status, json.loads(said)

    def post(self, name, body):
        """What the page would send."""
        status, said = self.ask("POST", f"/{self.token}/{name}", body, Origin=f"http://{self.host}")
        return status, json.loads(said)


def refuses_strangers(served, checks):
    own, good = f"/{served.token}/", f"http://{served.host}"
    scan = "scan?run=1&from={}&positions=1&row=1&pairs=1"
    port = served.host.split(":")[1]
    for what, wanted, (status, _) in (
        ("the page", 200, served.ask("GET", own)),
        ("the page by localhost", 200, served.ask("GET", own, Host=f"localhost:{port}")),
        ("no token", 403, served.ask("GET", "/")),
        ("another token", 403, served.ask("GET", f"/{'x' * len(served.token)}/")),
        ("a part of the token", 403, served.ask("GET", f"/{served.token[:-1]}/")),
        ("another Host", 403, served.ask("GET", own, Host=f"scatter.example:{port}")),
        ("a Host without the port", 403, served.ask("GET", own, Host="127.0.0.1")),
        ("another page", 403, served.ask("GET", own, Sec_Fetch_Site="cross-site")),
        ("no Origin", 403, served.ask("POST", own + "run", b"scatter 1\n")),
        ("another Origin", 403, served.ask("POST", own + "run", b"x", Origin="http://a.example")),
        ("a null Origin", 403, served.ask("POST", own + "run", b"x", Origin="null")),
        ("no token, its Origin", 403, served.ask("POST", "/run", b"x", Origin=good)),
        ("a file above", 404, served.ask("GET", own + "../scatter")),
        ("a scenario above", 404, served.ask("GET", own + "scenario?name=../README")),
        ("a run that is not", 410, served.ask("GET", own + "rows?run=1")),
        ("no run", 400, served.ask("GET", own + "rows?run=x")),
        ("no number", 400, served.ask("GET", own + scan.format(-1))),
        ("a number of 5,000 digits", 400, served.ask("GET", own + scan.format("9" * 5000))),
        ("another method", 501, served.ask("PUT", own + "run", b"x", Origin=good)),
    ):
        checks.same(what, status, wanted)


def refuses_large(served, checks):
    limit = 16_777_216
    status, said = served.post("run", b"#" * 20_000_000)
    checks.same("20 MB", (status, said["fault"]), (413, f"a scenario has at most {limit:,} bytes"))
    status, said = served.post("run", b"#" * limit)
    checks.same("as much as it takes", (status, said["said"]), (200, "line 1: missing header\n"))
    own = f"/{served.token}/run"
    status, _ = served.ask("POST", own, Origin=f"http://{served.host}")
    checks.same("no length", status, 411)
    for length, wanted in (("9" * 5000, 413), ("٣", 411), ("+1", 411), ("-1", 411)):
        head = f"POST {own} HTTP/1.1\r\nHost: {served.host}\r\nOrigin: http://{served.host}\r\n"
        said = served.raw(f"{head}Content-Length: {length}\r\n\r\n".encode())
        checks.same(f"a length of {len(length)} letters", said.split(b" ")[1:2], [b"%d" % wanted])


def many_checks(served, checks):
    """Checks of large texts at the same time get an answer each."""
    came, text = [], b"\n" * 16_000_000
    threads = [
        threading.Thread(target=lambda: came.append(served.post("check?page=a", text)))
        for _ in range(4)
    ]
    for one in threads:
        one.start()
    for one in threads:
        one.join(SECONDS)
    good = [said.get("said") == "line 1: missing header" for status, said in came if status == 200]
    late = [said.get("fault") for status, said in came if status == 503]
    checks.same("checks that got an answer", len(good) + len(late), 4)
    checks.same("what they say", all(good), True)
    checks.same("at least one came in time", len(good) > 0, True)


def refuses_two(served, checks):
    """A second run at once is refused, and the first one is stopped on request, from any page."""
    came = []
    ask = lambda: came.append(served.post("run?page=one", LONG))  # noqa: E731
    first = threading.Thread(target=ask)
    first.start()
    checks.same("it is known", wait_for(lambda: served.get("busy")[1]["busy"]), True)
    status, said = served.post("run?page=two", b"scatter 1\n")
    wanted = (409, "another run is under way: wait for it, or stop it")
    checks.same("two at once", (status, said.get("fault")), wanted)
    said = served.post("check", b"x")[1]["said"]
    checks.same("a check meanwhile", said, "line 1: missing header")
    checks.same("a stop", served.post("stop?page=two", b"")[0], 200)
    first.join(SECONDS)
    came = [(one[0], one[1].get("fault")) for one in came]
    checks.same("the first", came, [(410, "it was stopped")])
    status, said = served.post("run", b"scatter 1\nnodes 1\ngroup 0 1\n")
    checks.same("the next one", (status, said.get("status")), (200, 0))


def newer_ends_older(served, checks):
    """A newer run of one page ends the older one."""
    came = []
    older = threading.Thread(target=lambda: came.append(served.post("run?page=one", LONG)))
    older.start()
    wait_for(lambda: served.get("busy")[1]["busy"])
    status, said = served.post("run?page=one", b"scatter 1\nnodes 1\ngroup 0 1\n")
    checks.same("the newer one", (status, said.get("status")), (200, 0))
    older.join(SECONDS)
    checks.same("the older one", [one[0] for one in came], [410])


def ends_with_asker(served, checks):
    """A run ends at once when who asked for it goes away."""
    host, port = served.host.split(":")
    head = f"POST /{served.token}/run?page=gone HTTP/1.1\r\nHost: {served.host}\r\n"
    head += f"Origin: http://{served.host}\r\nContent-Length: {len(LONG)}\r\n\r\n"
    line = socket.create_connection((host, int(port)), SECONDS)
    line.sendall(head.encode() + LONG)
    checks.same("a run goes on", wait_for(lambda: served.children() > 0), True)
    line.close()
    checks.same("and ends", wait_for(lambda: served.children() == 0), True)
    checks.same("nothing is busy", served.get("busy")[1]["busy"], False)


def ends_with_server(program, folder, checks):
    """A run ends when the server is killed. (Its folder stays then, since nobody removes it.)"""
    served = Served(program, folder, "--seconds", str(SECONDS)).__enter__()
    threading.Thread(target=quietly, args=(lambda: served.post("run?page=one", LONG),)).start()
    wait_for(lambda: served.children() > 0)
    calls = below(served.process.pid)
    checks.same("a run of a server goes on", len(calls), 1)
    served.process.kill()
    served.process.wait()
    served.process.stdout.close()
    ended = wait_for(lambda: not any(is_alive(one) for one in calls))
    checks.same("it ends with the server", ended, True)
    for name in os.listdir(folder):
        shutil.rmtree(os.path.join(folder, name), ignore_errors=True)


def quietly(act):
    with contextlib.suppress(OSError, http.client.HTTPException, ValueError):
        act()


def refuses_long(served, checks):
    begun = time.monotonic()
    status, said = served.post("run", LONG)
    checks.same("a long run", (status, said["fault"][:26]), (503, "stopped after 2 seconds, t"))
    checks.same("how long it took", time.monotonic() - begun < SECONDS / 10, True)
    checks.same("after it", served.post("check", b"")[1]["said"], "line 1: missing header")


def refuses_hungry(served, checks):
    status, said = served.post("run", LONG)
    checks.same("much memory", (status, said["fault"]), (503, "stopped at 64 MiB of memory"))


def refuses_arguments(program, checks):
    """Arguments out of their ranges are said to be so, and end it with status 2."""
    words = [sys.executable, os.path.join(HERE, "tools", "edit"), "--kept", program]
    for more in (["--port", "80000"], ["--seconds", "0"], ["--seconds", "nan"], ["--memory", "x"]):
        ran = subprocess.run(
            [*words, *more], capture_output=True, text=True, timeout=SECONDS, check=False
        )
        said = "is no number from" in ran.stderr
        checks.same(f"the arguments {more}", (ran.returncode, said), (2, True))


def all_of(program, folder, checks, is_quick):
    with Served(program, folder, "--seconds", str(SECONDS)) as served:
        refuses_strangers(served, checks)
        refuses_large(served, checks)
        if not is_quick:
            many_checks(served, checks)
            newer_ends_older(served, checks)
        refuses_two(served, checks)
        ends_with_asker(served, checks)
    ends_with_server(program, folder, checks)
    refuses_arguments(program, checks)
    if is_quick:
        return
    with Served(program, folder, "--seconds", "2") as served:
        refuses_long(served, checks)
    with Served(program, folder, "--memory", "64") as served:
        refuses_hungry(served, checks)
