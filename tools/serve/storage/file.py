"""The file of a machine: the inputs of its actors, in the order in which they were taken.

The first line has the format, whose file it is and the scenario. Behind it are batches: a line
`batch K LENGTH CHECKSUM` and LENGTH bytes, which are whole lines. A batch is written when the one
before is on stable storage, and mail of its inputs leaves when it is itself. So of a file whose
writer was stopped at any time the last batch alone can be damaged, and then no mail of its inputs
has left: it is cut off. A damaged batch in front of another one is a damaged file, and is refused.
"""

import fcntl
import json
import os
import zlib

FORMAT = "scatter inputs 1"
READ_AT_ONCE = 1 << 22


class BadFile(Exception):
    """A file that cannot be used, with the cause."""


def header(owner, scenario):
    """The first line: whose file it is, and of which scenario."""
    said = {**owner, "scenario": scenario}
    return f"{FORMAT} {json.dumps(said, sort_keys=True)}\n".encode("ascii")


def parse_header(line):
    """Who owns a file, by its first line."""
    begin = FORMAT.encode() + b" "
    try:
        if not (line.startswith(begin) and line.endswith(b"\n")):
            raise ValueError
        said = json.loads(line[len(begin) :])
        said["scenario"].encode("ascii")
        return said
    except (ValueError, KeyError, TypeError, AttributeError):
        raise BadFile("it is no file of inputs of this format") from None


def batch(number, lines):
    """The bytes of a batch."""
    text = b"".join(lines)
    return b"batch %d %d %08x\n%s" % (number, len(text), zlib.crc32(text), text)


class Batches:
    """Reads the batches of an open file, from the end of its first line on.

    `end` is behind the last whole batch, `last` where that one begins, and `number` its number.
    """

    def __init__(self, file, begin):
        self.file, self.end, self.last, self.number = file, begin, begin, 0
        self.torn = None  # why what stands behind `end` is none

    def __iter__(self):
        self.file.seek(self.end)
        while True:
            text = self.next()
            if text is None:
                return
            yield text

    def next(self):
        line = self.file.readline(100)
        if not line:
            return None
        words = line.split()
        try:
            if len(words) != 4 or words[0] != b"batch" or line[-1:] != b"\n":
                raise ValueError
            number, length, check = int(words[1]), int(words[2]), int(words[3], 16)
        except ValueError:
            self.torn = "its first line is none"
            return None
        text = self.file.read(length)
        if number != self.number + 1 or len(text) != length or zlib.crc32(text) != check:
            self.torn = "it is not whole"
            return None
        self.number, self.last = number, self.end
        self.end += len(line) + length
        return text

    def is_followed(self):
        """Whether there is a whole batch behind the torn one: then that one was on stable storage."""
        self.file.seek(self.end)
        rest = self.file.read()
        at = rest.find(b"batch ", 1)
        while at >= 0:
            behind = Batches(self.file, self.end + at)
            for after in range(self.number + 1, self.number + 3):
                behind.number = after
                self.file.seek(behind.end)
                if behind.next() is not None:
                    return True
            at = rest.find(b"batch ", at + 1)
        return False


def sync_folder(path):
    folder = os.open(path, os.O_RDONLY | os.O_DIRECTORY)
    try:
        os.fsync(folder)
    finally:
        os.close(folder)


def create(path, first):
    """Makes a new file with its first line, on stable storage with its folder, or not at all."""
    part = f"{path}.part"
    with open(os.open(part, os.O_WRONLY | os.O_CREAT | os.O_TRUNC, 0o600), "wb") as file:
        file.write(first)
        file.flush()
        os.fsync(file.fileno())
    os.rename(part, path)
    sync_folder(os.path.dirname(path))


class File:
    """A file that this process writes. It is locked as long as it is open."""

    def __init__(self, path, owner, scenario):
        self.path, self.cut = path, 0
        first = header(owner, scenario)
        # the lock is of a file beside it, so that two that create it cannot both have it
        self.lock = os.open(f"{path}.lock", os.O_RDWR | os.O_CREAT, 0o600)
        try:
            fcntl.flock(self.lock, fcntl.LOCK_EX | fcntl.LOCK_NB)
        except BlockingIOError:
            os.close(self.lock)
            raise BadFile(f"{path}: it is in use by another process") from None
        if not os.path.exists(path):
            create(path, first)
        self.file, self.number = open(path, "r+b", buffering=READ_AT_ONCE), 0
        try:
            self.check_owner(owner, scenario)
        except BadFile as fault:
            self.close()
            raise BadFile(f"{path}: {fault}") from None

    def check_owner(self, owner, scenario):
        said = parse_header(self.file.readline())
        if said.pop("scenario") != scenario:
            raise BadFile("it is of another scenario")
        if said != owner:
            raise BadFile(f"it is of another owner: {json.dumps(said, sort_keys=True)}")

    def replay(self):
        """Iterates over the whole batches, then makes the file ready to be appended to."""
        batches = Batches(self.file, self.file.tell())
        yield from batches
        if batches.torn:
            if batches.is_followed():
                raise BadFile(f"{self.path}: batch {batches.number + 1} is damaged: {batches.torn}")
            self.cut = os.fstat(self.file.fileno()).st_size - batches.end
        self.settle(batches)

    def settle(self, batches):
        """Cuts off what is no whole batch, and writes the last one anew.

        A sync that failed may have left it in the memory of the system alone, where it counts as
        written; written again it is synced again.
        """
        out = self.file.fileno()
        os.ftruncate(out, batches.end)
        if batches.number:
            self.file.seek(batches.last)
            text = self.file.read(batches.end - batches.last)
            os.pwrite(out, text, batches.last)
        os.fsync(out)
        os.lseek(out, batches.end, os.SEEK_SET)
        self.number = batches.number

    def append(self, lines):
        """Appends a batch, and returns when it is on stable storage. After a fault nothing more may be appended."""
        self.number += 1
        text = batch(self.number, lines)
        out, done = self.file.fileno(), 0
        while done < len(text):
            done += os.write(out, text[done:] if done else text)
        os.fdatasync(out)

    def close(self):
        self.file.close()
        os.close(self.lock)
