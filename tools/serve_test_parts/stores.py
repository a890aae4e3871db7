"""Stores for tests: started in a folder of their own, stopped, killed, and checked."""

import os
import signal
import socket
import subprocess
import sys
import tempfile
import time

import resp_client

PARTS = os.path.dirname(os.path.abspath(__file__))
TOOLS = os.path.dirname(PARTS)
SERVE, GATHER = os.path.join(TOOLS, "serve"), os.path.join(TOOLS, "gather")
sys.path.insert(0, SERVE)

from keeper import folder as folders  # noqa: E402
from program import scenario  # noqa: E402

PATIENCE = 60  # seconds that a store may take to be ready, on a machine that is busy


class Wrong(Exception):
    """What a test has found."""


def expect(is_so, said):
    if not is_so:
        raise Wrong(said)


def free_port():
    with socket.socket() as one:
        one.bind(("127.0.0.1", 0))
        return one.getsockname()[1]


def processes_of(path):
    """The carriers that have a file below a folder, by that file's name."""
    found = {}
    for pid in filter(str.isdigit, os.listdir("/proc")):
        try:
            with open(f"/proc/{pid}/cmdline", "rb") as file:
                words = file.read().decode("latin-1").split("\0")
        except OSError:
            continue
        if "--file" in words and words[words.index("--file") + 1].startswith(path + os.sep):
            found[os.path.basename(words[words.index("--file") + 1])] = int(pid)
    return found


class Store:
    """A store by the command itself, with its keeper."""

    def __init__(self, program, *words, path=None):
        # (a machine that is busy may take long, and that is no fault)
        self.program, self.words = program, words if "--timeout" in words else [*words, "--timeout", "30"]
        self.folder = None if path else tempfile.TemporaryDirectory(prefix="serve-test-")
        self.path = path or self.folder.name
        self.said = os.path.join(self.path, "said.log")
        self.port, self.process = free_port(), None

    def start(self):
        with open(self.said, "ab") as said:
            self.process = subprocess.Popen(
                [sys.executable, "-B", SERVE, "--program", self.program, "--dir", os.path.join(self.path, "store"),
                 "--port", str(self.port), *self.words],
                stdout=subprocess.PIPE, stderr=said, start_new_session=True,
            )  # fmt: skip
        line = self.process.stdout.readline()
        expect(line.strip() == b"%d" % self.port, f"the store is not ready: {self.log()}")
        return self

    @property
    def files(self):
        return os.path.join(self.path, "store")

    def log(self):
        with open(self.said, encoding="utf-8", errors="replace") as said:
            return said.read()[-2000:]

    def client(self, seconds=60):
        return resp_client.Client(self.port, seconds)

    def kill(self, name):
        """Kills a carrier, as `node-1.inputs`; with it its program ends."""
        pid = processes_of(self.files).get(name)
        if pid:
            os.kill(pid, signal.SIGKILL)
        return pid is not None

    def kill_all(self):
        """Kills the keeper and all carriers at once."""
        for pid in [self.process.pid, *processes_of(self.files).values()]:
            os.kill(pid, signal.SIGKILL)
        self.over()

    def stop(self):
        """Ends it as ctrl-C does, and waits for that."""
        if self.process and self.process.poll() is None:
            self.process.send_signal(signal.SIGINT)
            expect(self.process.wait(PATIENCE) == 0, f"it does not end in order: {self.log()}")
        self.over()

    def over(self):
        self.process.wait()
        self.process.stdout.close()
        until = time.monotonic() + PATIENCE
        while processes_of(self.files):
            expect(time.monotonic() < until, "a carrier does not end behind its keeper")
            time.sleep(0.05)

    def gather(self, *words):
        """What tools/gather says of the files: its status and its words; and both paths."""
        return gather(self.program, self.files, self.path, *words)

    def remove(self):
        if self.process and self.process.poll() is None:
            self.kill_all()
        if self.folder:
            self.folder.cleanup()

    def __enter__(self):
        return self

    def __exit__(self, *_):
        self.remove()


def gather(program, files, out, *words):
    journal, history = os.path.join(out, "journal"), os.path.join(out, "history")
    done = subprocess.run(
        [sys.executable, "-B", GATHER, files, journal, history, "--by", program, *words],
        stdout=subprocess.PIPE, stderr=subprocess.STDOUT, check=False,
    )  # fmt: skip
    return done.returncode, done.stdout.decode("utf-8", "replace").strip(), journal, history


class Bare:
    """The processes of a store without a keeper, so that a test may start them as it likes."""

    def __init__(self, program, nodes=3):
        self.program, self.folder = program, tempfile.TemporaryDirectory(prefix="serve-test-")
        self.path = self.folder.name
        self.files = os.path.join(self.path, "store")
        folders.new(self.files, scenario.lines_of(nodes, 1, False))
        self.cluster = os.path.join(self.files, folders.CLUSTER)
        self.processes, self.port, self.nodes = {}, 0, nodes

    def start(self, kind, number, plant=None, file=None, cluster=None):
        """Starts one carrier, with a planted fault where one is named, and waits until it is ready."""
        begin = [os.path.join(PARTS, "planted.py"), plant] if plant else [SERVE]
        said = open(os.path.join(self.path, "said.log"), "ab")
        process = subprocess.Popen(
            [sys.executable, "-B", *begin, "--role", kind, "--number", str(number), "--port", str(self.port),
             "--file", file or folders.inputs_of(self.files, kind, number), "--cluster", cluster or self.cluster,
             "--program", self.program, "--timeout", "4"],
            stdin=subprocess.PIPE, stdout=subprocess.PIPE, stderr=said, start_new_session=True,
        )  # fmt: skip
        said.close()
        self.processes[kind, number, file] = process
        line = process.stdout.readline()
        expect(line.startswith(b"ready "), f"{kind} {number} is not ready: {self.log()}")
        if kind == "front":
            self.port = int(line.split()[1])
        return process

    def log(self):
        with open(os.path.join(self.path, "said.log"), encoding="utf-8", errors="replace") as said:
            return said.read()[-2000:]

    def start_all(self, plants=None):
        for node in range(1, self.nodes + 1):
            self.start("node", node, (plants or {}).get(("node", node)))
        self.start("front", 1, (plants or {}).get(("front", 1)))

    def client(self, seconds=60):
        return resp_client.Client(self.port, seconds)

    def kill(self, kind, number, file=None):
        process = self.processes.pop((kind, number, file))
        process.kill()
        process.wait()
        process.stdin.close()
        process.stdout.close()

    def stop(self):
        """Ends all in order, the front first."""
        for key in sorted(self.processes, key=str):
            process = self.processes.pop(key)
            process.stdin.close()
            expect(process.wait(PATIENCE) == 0, f"{key} does not end in order: {self.log()}")
            process.stdout.close()

    def gather(self, *words):
        return gather(self.program, self.files, self.path, *words)

    def __enter__(self):
        return self

    def __exit__(self, *_):
        for key in list(self.processes):
            self.kill(*key)
        self.folder.cleanup()
