"""A store under load: five nodes in two groups, 16 connections, processes killed and started, links that are cut,
slow and repeat, and orders all the while. At the end all files are one run, the history is linearizable, and each
write that was acknowledged is accounted for."""

import json
import os
import random
import threading
import time

import resp_client
import stores
from stores import expect

from gather import check, linear

SECONDS, SEED = 12, 0
CONNECTIONS, KEYS, NODES = 16, 12, 5


class Caller(threading.Thread):
    """A redis client that reads and writes, and notes what was acknowledged."""

    def __init__(self, store, number, seed, until):
        super().__init__(daemon=True)
        self.store, self.number, self.until = store, number, until
        self.dice, self.count, self.lost, self.busy = random.Random(seed), 0, 0, 0
        self.fault, self.values, self.seen = None, {}, set()

    def run(self):
        client = None
        while time.monotonic() < self.until:
            try:
                if client is None:
                    client = self.store.client(20)
                self.ask(client)
            except resp_client.Failed as fault:
                if str(fault).startswith("BUSY"):
                    self.busy += 1
                    time.sleep(0.05)
                elif str(fault).startswith("TIMEOUT"):
                    self.lost += 1
                else:
                    self.fault = str(fault)
                    return
            except OSError:
                # the front was killed: nobody knows what became of the request
                self.lost += 1
                client = None
                time.sleep(0.1)

    def ask(self, client):
        """One request. Each value is written once, so that who reads it knows who wrote it."""
        key, value = f"key:{self.dice.randrange(KEYS)}", f"{self.number}.{self.count}"
        self.count += 1
        kind = self.dice.choice(["SET", "SET", "GET", "GET", "SETNX", "DEL", "CAS"])
        if kind == "GET":
            self.seen.add((key, client.ask("GET", key)))
        elif kind == "CAS":
            old = client.ask("GET", key)
            if old is not None:
                self.note(key, value, client.ask("CAS", key, old, value) == 1)
        elif kind == "DEL":
            client.ask("DEL", key)
        else:
            self.note(key, value, client.ask(kind, key, value) in (1, b"OK"))

    def note(self, key, value, is_written):
        if is_written:
            self.values.setdefault(key, []).append(value)


class Trouble(threading.Thread):
    """Kills processes, makes links worse and better, and orders, by chance."""

    def __init__(self, store, seed, until):
        super().__init__(daemon=True)
        self.store, self.until, self.dice = store, until, random.Random(seed)
        self.kills = self.faults = 0
        self.orders, self.done = 0, 0

    def run(self):
        while time.monotonic() < self.until:
            time.sleep(self.dice.uniform(0.05, 0.4))
            try:
                self.dice.choice([self.kill, self.worsen, self.worsen, self.order, self.order])()
            except (OSError, resp_client.Failed):
                pass
        for node in range(1, NODES + 1):
            self.calm(node)

    def kill(self):
        name = self.dice.choice([f"node-{n}.inputs" for n in range(1, NODES + 1)] + ["front-1.inputs"])
        self.kills += self.store.kill(name)

    def worsen(self):
        node, to = self.dice.sample(range(1, NODES + 1), 2)
        said = self.dice.choice([{}, {"cut": 1}, {"slow": 0.1, "repeat": 20}, {"lose": 10, "repeat": 10}, {}])
        client = self.store.client(5)
        client.ask("FAULTS", node, json.dumps({to: said}))
        client.close()
        self.faults += 1

    def calm(self, node):
        """All links of a node are as they are."""
        for _ in range(50):
            try:
                client = self.store.client(5)
                client.ask("FAULTS", node, json.dumps({n: {} for n in range(1, NODES + 1)}))
                client.close()
                return
            except (OSError, resp_client.Failed):
                time.sleep(0.2)

    def order(self):
        client = self.store.client(8)
        lines = client.ask("INFO", "groups").decode().splitlines()[1:]
        group = self.dice.choice(lines)
        name = group.split(":")[0][len("group") :]
        members = [int(n) for n in group.split("members=")[1].split(",")[0].split("+")]
        lo, length = (int(group.split(f"{word}=")[1].split(",")[0]) for word in ("lo", "len"))
        at = (lo + self.dice.randrange(1, length)) % (1 << 32)
        words = self.dice.choice(
            [["split", name, at], ["merge", name], ["merge", name], ["repart", name, at],
             ["join", self.dice.randrange(1, NODES + 1), name], ["join", self.dice.randrange(1, NODES + 1), name],
             ["leave", self.dice.choice(members), name], ["migrate", name, self.dice.choice(members)]]
        )  # fmt: skip
        self.orders += 1
        client.ask("ORDER", *words)
        self.done += 1
        client.close()


def load(program):
    with stores.Store(program, "--nodes", str(NODES), "--groups", "2", "--timeout", "3") as store:
        store.start()
        until = time.monotonic() + SECONDS
        trouble = Trouble(store, SEED, until)
        callers = [Caller(store, k, SEED * 100 + k, until) for k in range(CONNECTIONS)]
        for one in [trouble, *callers]:
            one.start()
        for one in [trouble, *callers]:
            one.join(SECONDS + 60)
            expect(not one.is_alive(), f"seed {SEED}: a caller does not end")
        faults = [one.fault for one in callers if one.fault]
        expect(not faults, f"seed {SEED}: {faults[:1]}")
        last = last_values(store)
        store.stop()
        status, said, journal, history = store.gather()
        expect(status == 0, f"seed {SEED}: {said}")
        print(
            f"  seed {SEED}: {sum(one.count for one in callers)} requests, {sum(one.lost for one in callers)} lost,"
            f" {trouble.kills} kills, {trouble.faults} changes of links, {trouble.done} of {trouble.orders} orders done; {said}"
        )
        checked(program, journal, history)
        accounted(callers, last, history)


def last_values(store):
    """What each key has at the end; the store answers when its processes have found each other again."""
    found, until = {}, time.monotonic() + stores.PATIENCE
    while len(found) < KEYS:
        if time.monotonic() > until:
            raise stores.Wrong(f"seed {SEED}: the store does not answer any more: {store.client().ask('INFO').decode()}")
        try:
            client = store.client(20)
            for k in range(len(found), KEYS):
                found[f"key:{k}"] = client.ask("GET", f"key:{k}")
            client.close()
        except (OSError, resp_client.Failed):
            time.sleep(0.2)
    return found


def checked(program, journal, history):
    """The audit and the history, by the program where it has these subcommands."""
    expect(check.audit(program, journal), f"seed {SEED}: the rows are not lawful")
    with open(history, encoding="ascii") as source:
        lines = source.read().splitlines()[1:]
    key = linear.first_bad_key(lines)
    expect(key is None, f"seed {SEED}: the history is not linearizable at key {key}")
    status, said = check.ask(program, ["linear"], history)
    if status != check.BAD_WORDS:
        expect(status == 0, f"seed {SEED}: linear: {said}")


def accounted(callers, last, history):
    """Each acknowledged write stands in the history as done, and what a key has at the end was written to it."""
    with open(history, encoding="ascii") as source:
        lines = source.read().splitlines()
    open_now, done, begun = {}, set(), set()
    for line in lines[1:]:
        process, *words = line.split()
        if words[0] in ("put", "add", "cas"):
            open_now[process] = words[-1]
            begun.add(words[-1])
        elif words[0] in ("get", "del"):
            open_now[process] = None
        elif words[0] != "lost":
            done.add(open_now.pop(process))
    for one in callers:
        for key, values in one.values.items():
            for value in values:
                # (a front that is killed may not have noted an answer that it gave; the request it has)
                expect(value in done or value in begun, f"seed {SEED}: {key} {value} was acknowledged, and is in no history")
        for key, value in one.seen:
            expect(value is None or value.decode() in begun, f"seed {SEED}: {key} has {value}, which nobody wrote")
    for key, value in last.items():
        expect(value is None or value.decode() in begun, f"seed {SEED}: {key} has {value}, which nobody wrote")


TESTS = [load]
