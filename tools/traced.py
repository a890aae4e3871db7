"""What `trace` prints of a journal, read back for the tests of the tools beside it."""

import re


class Traced:
    """The lines of each row, as tools/trace prints them, and what follows from them."""

    def __init__(self, text):
        self.rows = []
        for line in text.splitlines():
            if line[:8].strip():
                self.rows.append([line[8:]])
            else:
                self.rows[-1].append(line.strip())
        self.sent, self.lives = {}, {}
        for number, lines in enumerate(self.rows, 1):
            for line in lines[1:]:
                found = re.match(r"sends (\d+) to (\w+): ", line)
                if found:
                    self.sent[int(found[1])] = (number, found[2])
            found = re.match(r"\w+ (?:gets|never gets|mail) (\d+) ", lines[0])
            if found:
                self.lives.setdefault(int(found[1]), []).append(number)

    def crash(self, who):
        """The row in which a node crashes, or one after the last."""
        rows = (number for number, lines in enumerate(self.rows, 1) if lines[0] == f"{who} crashes")
        return next(rows, len(self.rows) + 1)

    def pending(self, row):
        """How many mails are under way after a row."""
        copies, crashes = 0, {}
        for mail, (sent, who) in self.sent.items():
            if who not in crashes:
                crashes[who] = self.crash(who)
            if sent > row or who == "desk" or crashes[who] <= row or crashes[who] < sent:
                continue
            lives = [one for one in self.lives.get(mail, []) if one <= row]
            again = sum(" comes again" in self.rows[one - 1][0] for one in lives)
            copies += 1 + again - (len(lives) - again)
        return copies

    def is_about(self, lines, who):
        """Whether a row belongs to an actor, or sends or takes mail to or from it."""
        first = lines[0]
        mail = re.match(r"network (?:mail|never gets) (\d+) ", first)
        if mail:
            sent, receiver = self.sent[int(mail[1])]
            return receiver == who or self.rows[sent - 1][0].startswith(f"{who} ")
        if first.startswith(f"{who} ") or f" from {who}: " in first:
            return True
        return any(line.startswith("sends ") and f" to {who}: " in line for line in lines[1:])

    def rows_of(self, who):
        """How many rows are about an actor."""
        return sum(self.is_about(lines, who) for lines in self.rows)


class Request:
    """A request by the lines of a trace: the rows of its issue and its answer, and the reply."""

    def __init__(self, client, seq, words, row):
        self.client, self.seq, self.words, self.issued = client, seq, words.split(" "), row
        self.key, self.answered, self.reply = self.words[1], None, None


def requests(traced):
    """The requests that the lines of a trace name, in the order in which they were issued."""
    found, open_now = [], {}
    for number, lines in enumerate(traced.rows, 1):
        got = re.match(r"(c\d+) gets \d+ from \w+: Answer \S+ (\d+): (none|value \S+)$", lines[0])
        if got and got[1] in open_now and open_now[got[1]].seq == int(got[2]):
            asked = open_now.pop(got[1])
            asked.answered = number
            asked.reply = None if got[3] == "none" else got[3][len("value ") :]
        for line in lines[1:]:
            sent = re.match(r"sends \d+ to \w+: Request \S+ (\d+): (.*)$", line)
            client, is_client = lines[0].split(" ")[0], lines[0].startswith("c")
            if not sent or not is_client:
                continue
            if client in open_now and open_now[client].seq == int(sent[1]):
                continue
            open_now[client] = Request(client, int(sent[1]), sent[2], number)
            found.append(open_now[client])
    return found
