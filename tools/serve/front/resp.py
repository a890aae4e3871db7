"""The protocol of redis, version 2: requests as bytes come, and replies.

A request is a list of byte strings, or a line of words. An argument longer than any that a command
takes is passed over without being kept, and stands as TOO_LONG.
"""

MOST_ARGUMENTS, MOST_BULK = 1 << 20, 512 << 20  # as redis has them
MOST_LINE = 1 << 16
MOST_KEPT, MOST_KEPT_TOGETHER = 1 << 16, 1 << 20
TOO_LONG = None
OK, NIL, QUEUED = b"+OK\r\n", b"$-1\r\n", b"+QUEUED\r\n"


class BadRequest(Exception):
    """Bytes that are no request: what is said before the connection is closed."""


class Closed(Exception):
    """What came is of another protocol, and is not answered."""


def simple(text):
    return b"+%s\r\n" % text.encode()


def error(text):
    return b"-%s\r\n" % text.replace("\r", " ").replace("\n", " ").encode("latin-1", "replace")


def number(value):
    return b":%d\r\n" % value


def bulk(text):
    return NIL if text is None else b"$%d\r\n%s\r\n" % (len(text), text)


def array(parts):
    return b"*%d\r\n%s" % (len(parts), b"".join(parts))


class Requests:
    """Takes bytes, and gives whole requests."""

    def __init__(self):
        self.left, self.at = bytearray(), 0
        self.more = 0  # arguments of the list that is read
        self.length, self.skip = None, 0  # of the argument that is read, and how much of it is passed over
        self.words, self.kept = [], 0

    def feed(self, data):
        if self.at:
            del self.left[: self.at]
            self.at = 0
        self.left += data

    def line(self):
        """The next whole line, or nothing yet."""
        end = self.left.find(b"\n", self.at, self.at + MOST_LINE)
        if end < 0:
            if len(self.left) - self.at >= MOST_LINE:
                raise BadRequest(
                    "Protocol error: too big mbulk count string" if self.more else "Protocol error: too big inline request"
                )
            return None
        line = bytes(self.left[self.at : end]).rstrip(b"\r")
        self.at = end + 1
        return line

    def at_once(self):
        """The next request where all that has come is one whole list without line feeds in it, which is most often so."""
        if self.at or self.more or self.left[:1] != b"*":
            return None
        parts = bytes(self.left).split(b"\r\n")
        words = parts[2::2]
        if len(self.left) > MOST_KEPT or parts[0] != b"*%d" % len(words) or len(parts) != 2 * len(words) + 2 or parts[-1]:
            return None
        if parts[1:-1:2] != [b"$%d" % len(word) for word in words]:
            return None
        self.left.clear()
        return words

    def next(self):
        """The next request, or nothing yet."""
        words = self.at_once()
        if words is not None:
            return words
        while not self.more:
            line = self.line()
            if line is None:
                return None
            if line[:1] != b"*":
                words = inline(line)
                if words:
                    return words
                continue
            count = whole(line[1:])
            if count is None or count > MOST_ARGUMENTS:
                raise BadRequest("Protocol error: invalid multibulk length")
            self.more, self.words, self.kept = max(count, 0), [], 0
        while self.more:
            if not self.argument():
                return None
        return self.words

    def argument(self):
        """Takes the next argument, and says whether it was there."""
        if self.length is None:
            line = self.line()
            if line is None:
                return False
            if line[:1] != b"$":
                raise BadRequest(f"Protocol error: expected '$', got '{chr(line[0]) if line else ' '}'")
            length = whole(line[1:])
            if length is None or not 0 <= length <= MOST_BULK:
                raise BadRequest("Protocol error: invalid bulk length")
            self.length, self.skip = length, 0
            if length > MOST_KEPT or self.kept + length > MOST_KEPT_TOGETHER:
                self.skip = length
        if self.skip:
            passed = min(self.skip, len(self.left) - self.at)
            self.at += passed
            self.skip -= passed
            if self.skip:
                return False
            self.length = -1
        size = max(self.length, 0)
        if len(self.left) - self.at < size + 2:
            return False
        text = TOO_LONG if self.length < 0 else bytes(self.left[self.at : self.at + size])
        self.at += size + 2
        self.kept += size
        self.words.append(text)
        self.length, self.more = None, self.more - 1
        return True


def whole(text):
    """A whole number as the protocol spells it."""
    digits = text[1:] if text[:1] == b"-" else text
    return int(text) if digits.isdigit() and len(digits) < 20 else None


def inline(line):
    """The words of a line that somebody types, with quotation marks around words that have blanks."""
    first = line.split(None, 1)[:1]
    if first and first[0].lower() in (b"post", b"host:"):
        # a page in a browser, which is to talk to no store
        raise Closed
    if b'"' not in line and b"'" not in line:
        return line.split()
    words, at = [], 0
    while at < len(line):
        if line[at : at + 1].isspace():
            at += 1
            continue
        word, at = quoted(line, at)
        words.append(word)
    return words


def quoted(line, at):
    """One word of a line, from a place on, and where it ends."""
    word, mark = bytearray(), None
    while at < len(line):
        byte = line[at : at + 1]
        if mark is None and byte.isspace():
            break
        if mark is None and byte in (b'"', b"'") and not word:
            mark = byte
        elif byte == mark:
            if line[at + 1 : at + 2].strip():
                raise BadRequest("Protocol error: unbalanced quotes in request")
            return bytes(word), at + 1
        elif mark == b'"' and line[at : at + 2] == b"\\x" and is_hex(line[at + 2 : at + 4]):
            word.append(int(line[at + 2 : at + 4], 16))
            at += 3
        elif mark and byte == b"\\" and at + 1 < len(line) and (mark == b'"' or line[at + 1 : at + 2] == b"'"):
            word += ESCAPES.get(line[at + 1 : at + 2], line[at + 1 : at + 2])
            at += 1
        else:
            word += byte
        at += 1
    if mark is not None:
        raise BadRequest("Protocol error: unbalanced quotes in request")
    return bytes(word), at


ESCAPES = {b"n": b"\n", b"r": b"\r", b"t": b"\t", b"b": b"\b", b"a": b"\a"}


def is_hex(text):
    return len(text) == 2 and all(byte in b"0123456789abcdefABCDEF" for byte in text)
