"""Carriers with a fault of their own, which the check of the files has to see.

    planted.py NAME --role node|front ..

Each is the carrier itself with one function put in another one's place.
"""

import os
import runpy
import sys
import threading

SERVE = os.path.join(os.path.dirname(os.path.dirname(os.path.abspath(__file__))), "serve")
sys.path.insert(0, SERVE)

from machines import node  # noqa: E402
from storage import file  # noqa: E402


def early():
    """Mail leaves before its input is stored; what is not stored when the process is killed is gone."""
    append, wait = file.File.append, threading.Event()

    def late(self, lines):
        wait.wait(0.7)
        append(self, lines)

    def at_once(self):
        self.synced = 1 << 62
        send(self)

    send, node.Node.release = node.Node.release, at_once
    file.File.append = late


def changed():
    """One mail is changed on its way: the first value that a leader sends to another node."""
    outgoing, done = node.Node.outgoing, []

    def change(self, line, number):
        found = outgoing(self, line, number)
        for at, (receiver, frame) in enumerate(found):
            if receiver <= 32 and b'"value":"' in frame and not done:
                done.append(at)
                found[at] = (receiver, frame.replace(b'"value":"', b'"value":"other', 1))
        return found

    node.Node.outgoing = change


if __name__ == "__main__":
    {"early": early, "changed": changed}[sys.argv.pop(1)]()
    sys.argv[0] = SERVE
    runpy.run_path(SERVE, run_name="__main__")
