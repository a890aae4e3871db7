"""The files of a store's folder, and the program's answers to the inputs of each actor."""

import json
import os
import re
import subprocess
import tempfile

from program import scenario
from storage import file, inputs


class BadFiles(Exception):
    """Files that are of no one store, with the cause."""


class Stored:
    """One file: whose it is, its lines, and which actors it has."""

    def __init__(self, path):
        self.path, self.name = path, os.path.basename(path)
        with open(path, "rb") as source:
            try:
                said = file.parse_header(source.readline())
            except file.BadFile as fault:
                raise BadFiles(f"{path}: {fault}") from None
            self.scenario = said["scenario"]
            self.begin = source.tell()
        if "node" in said:
            self.actors, self.front = [said["node"]], None
        else:
            first, last = said["clients"]
            self.actors = [scenario.NODES + c for c in range(first, last + 1)]
            self.front = said["front"]

    def lines(self):
        """Iterates over (actor, line), without line feeds; the lines of the history are of nobody."""
        with open(self.path, "rb") as source:
            batches = file.Batches(source, self.begin)
            for text in batches:
                for line in text.split(b"\n")[:-1]:
                    yield self.parse(line)
            if batches.torn and batches.is_followed():
                raise BadFiles(f"{self.path}: batch {batches.number + 1} is damaged: {batches.torn}")

    def parse(self, line):
        if self.front is None:
            return self.actors[0], line
        first, _, rest = line.partition(b" ")
        return (None, rest) if first == b"h" else (scenario.NODES + int(first), rest)


def find(folder):
    """The files of a folder and those below it, by name. Two of one actor are refused, and two scenarios."""
    paths = []
    for at, _, names in os.walk(folder):
        paths += [os.path.join(at, name) for name in names if name.endswith(".inputs")]
    if not paths:
        raise BadFiles(f"{folder}: no file of inputs is there")
    found, owner = [Stored(path) for path in sorted(paths)], {}
    for one in found:
        if one.scenario != found[0].scenario:
            raise BadFiles(f"{one.path} and {found[0].path} are of two scenarios")
        for actor in one.actors:
            other = owner.setdefault(actor, one)
            if other is not one:
                raise BadFiles(f"{other.path} and {one.path} are both of {scenario.name(actor)}")
    nodes = int(re.search(r"(?m)^nodes (\d+)$", found[0].scenario).group(1))
    missing = [n for n in range(1, nodes + 1) if n not in owner]
    if missing:
        raise BadFiles(f"{folder}: no file of node {missing[0]} is there")
    return found


class Answers:
    """What the program prints of the inputs of one actor, one after another."""

    def __init__(self, program, actor, text, folder):
        words = ["node", str(actor)] if actor <= scenario.NODES else ["client", str(actor - scenario.NODES)]
        self.given = tempfile.TemporaryFile(dir=folder)
        self.given.write(scenario.head(text))
        self.words, self.process, self.name = [program, *words], None, scenario.name(actor)

    def add(self, line):
        self.given.write(inputs.fed(line + b"\n"))

    def next(self):
        """The answer to the next input, without its line feed."""
        if self.process is None:
            self.given.flush()
            self.given.seek(0)
            self.process = subprocess.Popen(self.words, stdin=self.given, stdout=subprocess.PIPE, bufsize=1 << 16)
        line = self.process.stdout.readline()
        if not line.endswith(b"\n"):
            status = self.process.wait()
            said = line.decode("latin-1").strip()
            raise BadFiles(f"the program of {self.name} ended with status {status} {said}".rstrip())
        return line[:-1]

    def close(self):
        if self.process:
            self.process.stdout.close()
            self.process.kill()
            self.process.wait()
        self.given.close()


def said(value):
    """JSON in the spelling of rows."""
    return json.dumps(value, separators=(",", ":"), sort_keys=True)
