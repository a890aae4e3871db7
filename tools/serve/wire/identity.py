"""Who is at the other end of a connection.

Both ends show that they know the secret of the store, without sending it, and of which scenario
they are: each answers the other's random word by a checksum that only the secret gives. Outside
the loopback the connection is TLS besides, where each end has the certificate of its number
(`certificates.py`), and a peer whose certificate is of another number is refused.
"""

import hashlib
import hmac
import os
import re
import secrets

FIRST = re.compile(rb"scatter peer 1 ([0-9a-f]{32})\Z")
SECOND = re.compile(rb"(node|front) (\d{1,2}) ([0-9a-f]{32}) ([0-9a-f]{64})\Z")
THIRD = re.compile(rb"([0-9a-f]{64})\Z")


def new_secret(path):
    """Makes a secret that only the owner of the folder may read."""
    file = os.open(path, os.O_WRONLY | os.O_CREAT | os.O_EXCL, 0o600)
    with os.fdopen(file, "w") as out:
        out.write(secrets.token_hex(32) + "\n")
        out.flush()
        os.fsync(file)


def word():
    return secrets.token_hex(16).encode()


class Secret:
    """What both ends know: the secret and the scenario."""

    def __init__(self, secret, scenario):
        self.key = hashlib.sha256(secret.encode() + b"\n" + scenario.encode()).digest()

    def proof(self, *words):
        return hmac.new(self.key, b" ".join(words), "sha256").hexdigest().encode()

    def second(self, first, own, me):
        """The line by which a caller answers the first line, with its own word."""
        found = FIRST.match(first)
        if not found:
            return None
        return b"%s %s %s" % (me, own, self.proof(b"caller", found.group(1), own, me))

    def caller(self, own, node, line):
        """Who calls this node, and the line that answers it; nothing where it does not show it."""
        found = SECOND.match(line)
        if not found:
            return None
        kind, number, other, proof = found.groups()
        me = b"%s %s" % (kind, number)
        if not hmac.compare_digest(proof, self.proof(b"caller", own, other, me)):
            return None
        return (kind.decode(), int(number)), self.proof(b"called %d" % node, own, other, me)

    def is_called(self, first, own, me, node, line):
        """Whether the third line is of this node, which knows the secret."""
        found = FIRST.match(first)
        return bool(THIRD.match(line)) and hmac.compare_digest(
            line, self.proof(b"called %d" % node, found.group(1), own, me)
        )


def number_of_certificate(transport):
    """The node whose certificate the other end has shown, or nothing without TLS."""
    tls = transport.get_extra_info("ssl_object")
    if tls is None:
        return None
    subject = (tls.getpeercert() or {}).get("subject", ())
    names = [value for part in subject for name, value in part if name == "commonName"]
    found = re.match(r"scatter node (\d{1,2})\Z", names[0]) if len(names) == 1 else None
    return int(found.group(1)) if found else 0
