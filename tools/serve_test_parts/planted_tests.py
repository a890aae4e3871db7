"""Each planted fault of a carrier is seen by `tools/gather`, which says where."""

import json
import os
import time

import stores
from stores import expect

from keeper import folder as folders
from storage import file


def refused(bare, *words):
    """That the files are refused, with these words."""
    status, said, _, _ = bare.gather()
    expect(status == 1, f"the files are taken: {said}")
    expect(all(word in said for word in words), f"the refusal says something else: {said}")


def taken(bare):
    status, said, _, _ = bare.gather()
    expect(status == 0, f"the files of a right carrier are refused: {said}")


def some_writes(bare, name, count=8):
    client = bare.client()
    for k in range(count):
        client.insist("SET", f"{name}{k}", f"{name} {k}")
    client.close()


def mail_before_storage(program):
    """A node whose mail leaves too early is killed: what it promised is not in its file."""
    with stores.Bare(program) as bare:
        bare.start_all({("node", 1): "early"})
        some_writes(bare, "a")
        bare.kill("node", 1)
        bare.start("node", 1)
        some_writes(bare, "b")
        bare.stop()
        refused(bare, "n1")


def changed_mail(program):
    with stores.Bare(program) as bare:
        bare.start_all({("node", node): "changed" for node in (1, 2, 3)})
        some_writes(bare, "a")
        bare.stop()
        refused(bare, "is not the mail that", "arrived:", "sent:", "other")


def rolled_back_file(program):
    """Ten lines of a node's file are gone, of which one sent mail that was delivered."""
    with stores.Bare(program) as bare:
        bare.start_all()
        some_writes(bare, "a")
        bare.stop()
        taken(bare)
        path = folders.inputs_of(bare.files, "node", 1)
        cut_lines(path, 10)
        refused(bare, "n1")
        bare.start_all()
        some_writes(bare, "b")
        bare.stop()
        refused(bare, "n1")


def cut_lines(path, count):
    """Takes the last lines off a file, and leaves it whole."""
    with open(path, "rb") as source:
        first = source.readline()
        batches = [text.splitlines(True) for text in file.Batches(source, len(first))]
    while count:
        batches[-1].pop()
        count -= 1
        if not batches[-1]:
            batches.pop()
    with open(path, "wb") as target:
        target.write(first)
        for number, lines in enumerate(batches, 1):
            target.write(file.batch(number, lines))


def two_of_one_number(program):
    """Two processes say that they are node 2, each with a file."""
    with stores.Bare(program) as bare:
        bare.start_all()
        some_writes(bare, "a")
        with open(bare.cluster, encoding="ascii") as source:
            said = json.load(source)
        said["nodes"]["2"]["address"] = f"127.0.0.1:{stores.free_port()}"
        said["secret"] = os.path.join(bare.files, folders.SECRET)
        other = os.path.join(bare.path, "other.json")
        folders.write(other, json.dumps(said))
        second = os.path.join(bare.path, "node-2.inputs")
        process = bare.start("node", 2, file=second, cluster=other)
        # (nobody sends it mail, so it misses its leader, and runs)
        until = time.monotonic() + stores.PATIENCE
        while os.path.getsize(second) < 600 and time.monotonic() < until:
            time.sleep(0.1)
        expect(process.poll() is None, f"the second node 2 ended: {bare.log()}")
        some_writes(bare, "b")
        bare.stop()
        refused(bare, "n2")
        os.rename(second, os.path.join(bare.files, "again.inputs"))
        refused(bare, "both of n2")


def one_number_two_requests(program):
    """A front has lost its file: its clients count from 1 again, with other requests."""
    with stores.Bare(program) as bare:
        bare.start_all()
        some_writes(bare, "a", 3)
        bare.stop()
        os.remove(folders.inputs_of(bare.files, "front", 1))
        bare.start_all()
        try:
            client = bare.client()
            client.ask("SET", "other", "other")
        except stores.resp_client.Failed:
            pass
        bare.stop()
        refused(bare)


TESTS = [mail_before_storage, changed_mail, rolled_back_file, two_of_one_number, one_number_two_requests]
