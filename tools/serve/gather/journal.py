"""What is made of a folder: a stored journal without clients and schedule, and the history of its fronts."""

import os

from gather import files, rows

MOST_BYTES = 268_435_456  # of a stored journal that an audit takes


class Gathered:
    """How many rows and lines were written, and whether there are more than the file may have."""

    def __init__(self):
        self.rows, self.left_out, self.bytes = 0, 0, 0
        self.events, self.bad, self.actors = 0, 0, 0


def gather(folder, program, journal, history, most=MOST_BYTES):
    """Writes both files. Raises BadFiles where the files of the folder are of no one run."""
    found, made = files.find(folder), Gathered()

    def row(event, sent, who):
        text = b'{"event":%s,"sent":%s,"who":%d}\n' % (event, sent, who)
        if made.left_out or made.bytes + len(text) > most:
            made.left_out += 1
            return
        journal.write(text)
        made.rows += 1
        made.bytes += len(text)

    def told(line):
        history.write(line + b"\n")
        made.events += 1

    head = found[0].scenario.encode("ascii") + b"journal\n"
    journal.write(head)
    made.bytes = len(head)
    history.write(b"scatter history 1\n")
    all_rows = rows.Rows(found, program, os.path.dirname(os.path.abspath(journal.name)), row, told)
    all_rows.make()
    made.bad, made.actors = all_rows.bad, len(all_rows.actors)
    return made
