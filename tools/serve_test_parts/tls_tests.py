"""Machines with certificates: three machines as of a cluster file, and certificates that are not theirs."""

import json
import os
import shutil
import socket
import ssl
import subprocess
import sys
import tempfile

import resp_client
import stores
from stores import expect

from keeper import folder as folders
from program import scenario
from wire import cluster, identity


def certificates(folder, nodes=3):
    done = subprocess.run(
        [sys.executable, "-B", stores.SERVE, "--certificates", folder, "--nodes", str(nodes)],
        stderr=subprocess.PIPE, check=False,
    )  # fmt: skip
    expect(done.returncode == 0, f"no certificates: {done.stderr.decode()}")


def cluster_of(folder, said=None):
    """A cluster file of three machines with certificates; where they listen, and their clients."""
    nodes = {str(n): {"address": f"127.0.0.1:{stores.free_port()}", "clients": [20 * n - 19, 20 * n]} for n in (1, 2, 3)}
    said = {"scenario": scenario.lines_of(3, 2, False), "nodes": nodes, "certificates": "certificates", **(said or {})}
    path = os.path.join(folder, folders.CLUSTER)
    with open(path, "w", encoding="ascii") as file:
        json.dump(said, file)
    return path, said


class Machine:
    """One machine of many, by the command itself."""

    def __init__(self, program, path, folder, node):
        self.port = stores.free_port()
        self.process = subprocess.Popen(
            [sys.executable, "-B", stores.SERVE, "--program", program, "--node", str(node), "--cluster", path,
             "--dir", os.path.join(folder, f"machine-{node}"), "--port", str(self.port)],
            stdout=subprocess.PIPE, stderr=subprocess.PIPE, start_new_session=True,
        )  # fmt: skip

    def ready(self):
        line = self.process.stdout.readline()
        expect(line.strip() == b"%d" % self.port, f"a machine is not ready: {line}")

    def stop(self):
        self.process.terminate()
        self.process.communicate(timeout=stores.PATIENCE)


def shows_nothing(path, node, context):
    """Whether a node refuses a caller that shows a certificate: as it shakes hands, or behind that without a word."""
    host, port = cluster.Cluster(path).machines[node].address
    try:
        with socket.create_connection((host, port), 10) as peer:
            with context.wrap_socket(peer) as shaken:
                shaken.settimeout(10)
                first = shaken.recv(1000)
                if not first:
                    return True
                machine = cluster.Cluster(path)
                secret = identity.Secret(machine.read_secret(), machine.scenario)
                own = identity.word()
                shaken.sendall(secret.second(first.strip(), own, b"node 2") + b"\n")
                return shaken.recv(1000) == b""
    except (ssl.SSLError, ConnectionError):
        return True


def caller(folder, name):
    """What a caller has that shows a certificate of a folder."""
    context = ssl.SSLContext(ssl.PROTOCOL_TLS_CLIENT)
    context.check_hostname, context.verify_mode = False, ssl.CERT_NONE
    if name:
        context.load_cert_chain(os.path.join(folder, f"{name}.crt"), os.path.join(folder, f"{name}.key"))
    return context


def three_machines(program):
    """Three machines talk by TLS; who shows no certificate, one of another number or of another store is refused."""
    if shutil.which("openssl") is None:
        print("openssl is not there: nothing of TLS is tried")
        return
    with tempfile.TemporaryDirectory(prefix="serve-test-") as folder:
        known, others = os.path.join(folder, "certificates"), os.path.join(folder, "others")
        certificates(known)
        certificates(others)
        path, _ = cluster_of(folder)
        identity.new_secret(os.path.join(folder, folders.SECRET))
        machines = [Machine(program, path, folder, node) for node in (1, 2, 3)]
        try:
            for one in machines:
                one.ready()
            clients = [resp_client.Client(one.port) for one in machines]
            for k, client in enumerate(clients):
                expect(client.ask("SET", f"k{k}", k) == b"OK", "SET")
            for client in clients:
                expect([client.ask("GET", f"k{k}") for k in range(3)] == [b"0", b"1", b"2"], "GET at another machine")
            expect(not shows_nothing(path, 1, caller(known, "node-2")), "the right certificate is refused")
            expect(shows_nothing(path, 1, caller(known, "node-3")), "a certificate of another number is taken")
            expect(shows_nothing(path, 1, caller(others, "node-2")), "a certificate of another store is taken")
            expect(shows_nothing(path, 1, caller(known, None)), "no certificate is taken")
        finally:
            for one in machines:
                one.stop()
        status, said, journal, history = stores.gather(program, folder, folder)
        expect(status == 0, said)
        del journal, history


def no_certificates(program):
    """Outside the loopback there is no mail without TLS."""
    with tempfile.TemporaryDirectory(prefix="serve-test-") as folder:
        nodes = {str(n): {"address": f"10.0.0.{n}:7301", "clients": [n, n]} for n in (1, 2, 3)}
        path, _ = cluster_of(folder, {"nodes": nodes, "certificates": None})
        identity.new_secret(os.path.join(folder, folders.SECRET))
        words = [sys.executable, "-B", stores.SERVE, "--program", program, "--node", "1", "--cluster", path]
        done = subprocess.run([*words, "--dir", os.path.join(folder, "a")], stderr=subprocess.PIPE, check=False)
        expect(done.returncode == 2 and b"without TLS" in done.stderr, f"mail without TLS: {done}")


TESTS = [no_certificates, three_machines]
