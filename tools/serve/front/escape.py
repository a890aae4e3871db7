"""Keys and values of any bytes as the store has them: texts of 1 to 64 and 1 to 256 bytes, each from 33 to 126.

A value is percent-encoded: each byte outside 33 to 126, and the percent sign, is `%XX`. The empty
value is `%` alone. A key is percent-encoded too, behind two bytes of its checksum: the place of a
key on the ring is its first four bytes, so these two spread keys that begin alike.
"""

import re
import zlib

MOST_KEY, MOST_VALUE = 64, 256
LEAST, KINDS = 33, 94  # the first byte that a text may have, and how many there are
TURN = KINDS * KINDS  # what two bytes can be
EMPTY = b"%"
CODES = [bytes([b]) if LEAST <= b < LEAST + KINDS and b != 37 else b"%%%02X" % b for b in range(256)]
PLAIN = re.compile(rb"[!-$&-~]*\Z")  # what is encoded as it is


class TooLong(Exception):
    """A key or a value that does not fit, with what is said of it."""


def encoded(text):
    if PLAIN.match(text):
        return text
    return b"".join([CODES[b] for b in text])


def decoded(text):
    """The bytes of a percent-encoded text."""
    if b"%" not in text:
        return text
    first, *others = text.split(b"%")
    return first + b"".join(bytes([int(one[:2], 16)]) + one[2:] for one in others)


def spread(at):
    """The two bytes for a number below TURN."""
    return bytes([LEAST + at // KINDS, LEAST + at % KINDS])


def key(text):
    """A key as the store has it."""
    said = spread(zlib.crc32(text) % TURN) + encoded(text)
    if len(said) > MOST_KEY:
        raise TooLong(
            f"key too long: {len(said) - 2} bytes percent-encoded, and a key has at most {MOST_KEY - 2}"
        )
    return said.decode("ascii")


def value(text):
    """A value as the store has it."""
    said = encoded(text) or EMPTY
    if len(said) > MOST_VALUE:
        raise TooLong(
            f"value too long: {len(said)} bytes percent-encoded, and a value has at most {MOST_VALUE}"
        )
    return said.decode("ascii")


def plain(said):
    """A value as a caller gave it."""
    said = said.encode("ascii")
    return b"" if said == EMPTY else decoded(said)


def position(said):
    """Where a key as the store has it stands on the ring."""
    return int.from_bytes(said.encode("ascii")[:4].ljust(4, b"\0"), "big")


def boundary(group, groups):
    """Where a group of a new store begins: at the first two bytes of its share of the keys; the first at 0."""
    at = spread(TURN * group // groups) if group else b""
    return int.from_bytes(at.ljust(4, b"\0"), "big")
