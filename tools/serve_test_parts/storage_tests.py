"""The file of a machine: what is cut off, what is refused, and what a failed write leaves."""

import os
import resource
import signal
import subprocess
import sys
import tempfile
import time

import stores
from stores import expect

from keeper import folder as folders
from storage import file

SCENARIO = "scatter 2\nnodes 1\ngroup 0 1\n"
OWNER = {"node": 1}


def opened(path, owner=None, scenario=SCENARIO):
    """What a file has, as one that opens it reads it."""
    one = file.File(path, owner or OWNER, scenario)
    try:
        return [line for text in one.replay() for line in text.splitlines(True)], one.cut
    finally:
        one.close()


def refusal(path, owner=None, scenario=SCENARIO):
    try:
        opened(path, owner, scenario)
    except file.BadFile as fault:
        return str(fault)
    return None


def written(folder, batches):
    path = os.path.join(folder, "node-1.inputs")
    one = file.File(path, OWNER, SCENARIO)
    list(one.replay())
    for lines in batches:
        one.append(lines)
    one.close()
    return path


def torn_files(_):
    """At each length that a crash may leave, the whole batches are read, and no more."""
    batches = [[b"t\n"], [b"m 1 0 {}\n", b"t\n"], [b"o {}\n"]]
    with tempfile.TemporaryDirectory() as folder:
        path = written(folder, batches)
        with open(path, "rb") as source:
            whole = source.read()
        ends, at = [], len(file.header(OWNER, SCENARIO))
        for number, lines in enumerate(batches, 1):
            at += len(file.batch(number, lines))
            ends.append(at)
        for length in range(len(file.header(OWNER, SCENARIO)), len(whole) + 1):
            with open(path, "wb") as target:
                target.write(whole[:length])
            lines, cut = opened(path)
            kept = [line for end, some in zip(ends, batches) for line in some if end <= length]
            expect(lines == kept, f"of {length} bytes {lines} are read")
            expect(os.path.getsize(path) == length - cut, "what is torn is not cut off")


def damaged_files(_):
    """A damaged byte in front of a whole batch is refused; in the last batch it is cut off."""
    with tempfile.TemporaryDirectory() as folder:
        path = written(folder, [[b"t\n"] * 3, [b"o {}\n"] * 3, [b"t\n"] * 3])
        with open(path, "rb") as source:
            whole = source.read()
        begin = len(file.header(OWNER, SCENARIO))
        last = begin + len(file.batch(1, [b"t\n"] * 3)) + len(file.batch(2, [b"o {}\n"] * 3))
        for at in range(begin, len(whole), 3):
            with open(path, "wb") as target:
                target.write(whole[:at] + bytes([whole[at] ^ 1]) + whole[at + 1 :])
            said = refusal(path)
            expect((said is None) == (at >= last), f"byte {at} of {len(whole)} damaged, behind {last}: {said}")


def others_files(_):
    """A file of another node, of another scenario, of another kind or in use is refused, and stays as it was."""
    with tempfile.TemporaryDirectory() as folder:
        path = written(folder, [[b"t\n"]])
        with open(path, "rb") as source:
            before = source.read()
        expect("another owner" in refusal(path, {"node": 2}), "another node")
        expect("another scenario" in refusal(path, OWNER, SCENARIO + "policy\n"), "another scenario")
        one = file.File(path, OWNER, SCENARIO)
        expect("in use" in (refusal(path) or ""), "a file in use")
        one.close()
        with open(path, "rb") as source:
            expect(source.read() == before, "a refused file is changed")
        with open(path, "wb") as target:
            target.write(b"something else\n")
        expect("no file of inputs" in refusal(path), "a file of another kind")


def full_disk(program):
    """A node whose file can grow no more ends with a message, sends nothing of it, and goes on when it can."""
    with stores.Bare(program) as bare:
        bare.start_all()
        client = bare.client()
        client.insist("SET", "a", "1")
        node = bare.processes["node", 3, None]
        path = folders.inputs_of(bare.files, "node", 3)
        most = os.path.getsize(path) + 700
        resource.prlimit(node.pid, resource.RLIMIT_FSIZE, (most, most))
        until = time.monotonic() + stores.PATIENCE
        count = 0
        while node.poll() is None and time.monotonic() < until:
            count += 1
            client.insist("SET", f"k{count}", "x" * 100)
        expect(node.wait() == 75, f"a node with a full disk ends with status {node.poll()}")
        expect("File too large" in bare.log(), f"it does not say why: {bare.log()}")
        bare.kill("node", 3)
        bare.start("node", 3)
        client.insist("SET", "after", "1")
        bare.stop()
        status, said, _, _ = bare.gather()
        expect(status == 0, said)


def failed_syncs(_):
    """After a sync that failed nothing more is written, whoever waits is not told, and it is not tried again."""
    script = f"""
import asyncio, os, sys
sys.path.insert(0, {stores.SERVE!r})
from storage import file, syncing
def fails(_):
    raise OSError(5, "Input/output error")
async def main():
    loop, faults, synced = asyncio.get_running_loop(), [], []
    one = file.File(sys.argv[1], {OWNER!r}, {SCENARIO!r})
    list(one.replay())
    own = syncing.Syncing(loop, one, synced.append, faults.append)
    own.add(b"t\\n")
    await asyncio.sleep(0.1)
    os.fdatasync = fails
    own.add(b"t\\n")
    await asyncio.sleep(0.1)
    size = os.path.getsize(sys.argv[1])
    own.add(b"t\\n")
    await asyncio.sleep(0.1)
    assert synced == [1] and len(faults) == 1, (synced, faults)
    assert os.path.getsize(sys.argv[1]) == size
asyncio.run(main())
"""
    with tempfile.TemporaryDirectory() as folder:
        words = [sys.executable, "-B", "-c", script, os.path.join(folder, "node-1.inputs")]
        done = subprocess.run(words, stderr=subprocess.PIPE, check=False)
        expect(done.returncode == 0, done.stderr.decode())


def killed_at_once(program):
    """All processes are killed at once, while requests are under way; what was acknowledged is there."""
    with stores.Store(program) as store:
        store.start()
        acknowledged = {}
        for turn in range(2):
            client = store.client()
            for k in range(10):
                client.ask("SET", f"{turn}:{k}", k)
                acknowledged[f"{turn}:{k}"] = b"%d" % k
            for k in range(5):
                client.send("SET", f"open:{turn}:{k}", k)
            store.kill_all()
            client.close()
            store.start()
        client = store.client()
        for key, value in acknowledged.items():
            expect(client.ask("GET", key) == value, f"{key} is lost")
        store.stop()
        status, said, _, _ = store.gather()
        expect(status == 0, said)


def running_twice(program):
    """A store that runs is not started a second time."""
    with stores.Store(program) as store:
        store.start()
        words = [sys.executable, "-B", stores.SERVE, "--program", program, "--dir", store.files]
        done = subprocess.run(words, stderr=subprocess.PIPE, stdout=subprocess.PIPE, check=False)
        expect(done.returncode == 2 and b"is running" in done.stderr, f"a second start: {done}")
        done = subprocess.run([*words[:-1], store.files, "--nodes", "5"], stderr=subprocess.PIPE, check=False)
        expect(done.returncode == 2 and b"another scenario" in done.stderr, f"another scenario: {done}")
        store.process.send_signal(signal.SIGTERM)
        expect(store.process.wait(stores.PATIENCE) == 128 + signal.SIGTERM, "SIGTERM")
        store.over()


TESTS = [torn_files, damaged_files, others_files, failed_syncs, full_disk, killed_at_once, running_twice]
