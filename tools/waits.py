"""What an unanswered request or an open order waits for, as the rows of a journal have it.

What was decided is asked of `explain` (`explained.py`); which mail is pending, lost or taken is
counted from the rows. Nothing is claimed of what would have come: `why` tries lines by runs.
"""

import json

import causes
import journals
import schedules
from limits import OPEN_SLOTS, TX_KINDS


def command_key(command):
    """A command as a text, to find it again."""
    return json.dumps(command, sort_keys=True)


class Facts:
    """What the rows say of mail, leaders, slots and locks at their end."""

    def __init__(self, journal):
        causes.mark(journal)
        self.journal, self.decided = journal, journal.decided()
        self.pending = schedules.Pending(journal)
        self.taken, self.lost = {}, {}
        self.accepts, self.accepted, self.ballots, self.promises = {}, {}, {}, {}
        for row in journal.rows:
            self.pending.take(row)
            if row.event == "Deliver":
                self.taken.setdefault(row.of, row.number)
            elif row.event == "Drop":
                self.lost[row.of] = row.number
        for mail in journal.mails:
            self.note(mail)
        self.logs, self.records = {}, {}
        for entry in self.decided.entries:
            self.logs.setdefault(entry.group, []).append(entry)
        for record in self.decided.records:
            self.records[record.group] = record

    def note(self, mail):
        """Keeps what a mail of Paxos says."""
        said = mail.fields
        if mail.kind == "Accept":
            place = (said["group"], said["slot"])
            self.accepts.setdefault(place, []).append(mail)
        elif mail.kind == "Accepted":
            place = (said["group"], said["slot"], *said["ballot"])
            self.accepted.setdefault(place, []).append(mail)
        elif mail.kind == "Promise" and mail.number in self.taken:
            self.promises.setdefault((said["group"], *said["ballot"]), set()).add(mail.sender)
        if mail.kind in ("Accept", "Prepare"):
            top = self.ballots.get(said["group"], (0, 0))
            self.ballots[said["group"]] = max(top, tuple(said["ballot"]))

    # ---- mail

    def fate(self, mail):
        """What became of a mail, in a few words."""
        who = journals.actor(mail.receiver)
        if mail.number in self.taken:
            return f"was taken in row {self.taken[mail.number]}"
        if mail.number in self.pending.of.get(mail.receiver, []):
            return f"is pending at {who}"
        if mail.number in self.lost:
            return f"was lost in row {self.lost[mail.number]}"
        return f"is to {who}, which has crashed" if mail.receiver else "is to the desk"

    def mail_words(self, mail):
        return f"mail {mail.number}, {journals.words(mail)}, of row {mail.row} {self.fate(mail)}"

    # ---- groups

    def members(self, group):
        return list(self.records[group].members) if group in self.records else []

    def next_slot(self, group):
        return len(self.logs.get(group, [])) + 1

    def leader(self, group):
        """Who has asked with the highest ballot, and the ballot; the least member before that."""
        if group in self.ballots:
            return self.ballots[group][1], self.ballots[group]
        members = self.members(group)
        return (min(members), None) if members else (None, None)

    def leading(self, group):
        """Whether the group has a leader that is settled and lives, or else why it has none."""
        node, ballot = self.leader(group)
        if node is None:
            return f"{group} has no member that is known"
        if node in self.pending.crashed:
            return f"{group} has no settled leader: n{node}, the last, has crashed"
        promised = self.promises.get((group, *ballot), set()) if ballot else set()
        has_proposed = ballot and any(
            tuple(mail.fields["ballot"]) == ballot
            for (name, _), mails in self.accepts.items()
            if name == group
            for mail in mails
        )
        members = self.members(group)
        if ballot and not has_proposed and 2 * len(promised & set(members)) <= len(members):
            have = ", ".join(f"n{one}" for one in sorted(promised)) or "nobody"
            return (
                f"{group} has no settled leader: n{node} asks for promises with ballot"
                f" {journals.ballot(ballot)}, and has those of {have}"
            )
        return None

    def open_slots(self, group):
        """The slots at which something was proposed and nothing is decided."""
        start = self.next_slot(group)
        return sorted(slot for name, slot in self.accepts if name == group and slot >= start)

    def majority(self, group, slot):
        """Who has not accepted yet at an open slot, and why."""
        mails = self.accepts[(group, slot)]
        ballot = max(tuple(mail.fields["ballot"]) for mail in mails)
        have = {mail.sender for mail in self.accepted.get((group, slot, *ballot), [])}
        members = self.members(group)
        told = []
        for mail in mails:
            if tuple(mail.fields["ballot"]) == ballot and mail.receiver not in have:
                who = journals.actor(mail.receiver)
                told.append(f"mail {mail.number} to {who} {self.fate(mail)}")
        count = len(have & set(members))
        head = f"slot {slot} of {group} has {count} of {len(members)} members, by ballot"
        tail = f": {'; '.join(told)}" if told else ""
        return f"{head} {journals.ballot(ballot)}{tail}"

    def no_majority(self, group):
        """That too many members of a group have crashed, where it is so."""
        members = set(self.members(group))
        crashed = members & self.pending.crashed
        if not members or 2 * len(members - crashed) > len(members):
            return []
        names = " ".join(f"n{one}" for one in sorted(crashed))
        return [f"{group} has no majority: of {len(members)} members have crashed {names}"]

    # ---- transactions

    def coordinator(self, tx):
        """The group that began a transaction, by its log."""
        for group, log in self.logs.items():
            for entry in log:
                kind, said = journals.kind_and_fields(entry.command)
                name = said.get("child") if kind == "Split" else said.get("tx")
                if kind in ("Begin", "Split") and name == tx:
                    return group
        return None

    def about(self, tx):
        """The entries about a transaction, and its mail."""
        entries = [
            entry
            for entry in self.decided.entries
            if tx in journals.kind_and_fields(entry.command)[1].values()
        ]
        mails = [
            mail
            for mail in self.journal.mails
            if mail.kind in TX_KINDS and mail.fields["tx"] == tx
        ]
        return entries, mails

    def transaction(self, tx):
        """What a transaction waits for, line by line."""
        entries, mails = self.about(tx)
        group = self.coordinator(tx)
        kinds = [journals.kind_and_fields(entry.command)[0] for entry in entries]
        ended = next((one for one in entries if outcome_of(one) and one.group == group), None)
        lines = []
        if ended is not None:
            lines.append(f"{tx} was decided in row {ended.row}: {journals.decision(ended)}")
            waiting = [one.group for one in self.records.values() if one.tx == tx]
            for name in waiting:
                lines.append(f"{name} waits for that outcome")
        elif "Prepared" not in kinds and any(mail.kind == "TxPrepare" for mail in mails):
            part = next(mail for mail in mails if mail.kind == "TxPrepare").fields["offer"]["part"]
            lines.append(f"{tx} of {group} waits for the vote of {part}")
        elif "RecordVote" not in kinds and "Prepared" in kinds:
            part = next(one.group for one in entries if "Prepared" in one.command)
            lines.append(f"{tx} of {group} waits to hear the vote of {part}")
        elif any(mail.kind == "TxWatch" for mail in mails):
            part = [mail for mail in mails if mail.kind == "TxWatch"][-1].fields["watch"]["part"]
            lines.append(f"{tx} of {group} waits for {part} to watch")
        else:
            lines.append(f"{tx} of {group} has sent nothing yet")
        if mails:
            lines.append(f"its last: {self.mail_words(mails[-1])}")
        names = {group, *(one.group for one in self.records.values() if one.tx == tx)}
        for name in sorted(names - {None}):
            why = self.leading(name)
            if why:
                lines.append(why)
        return lines

    def lock(self, group):
        """What locks a group so that requests wait, line by line; nothing where none has to."""
        record = self.records.get(group)
        if record is None or record.role is None or record.role == "watches":
            return []
        return [f"{group} is locked: it {record.role} in {record.tx}", *self.transaction(record.tx)]


def outcome_of(entry):
    """Whether an entry decides a transaction."""
    kind, _ = journals.kind_and_fields(entry.effect)
    return kind == "Decided" or (kind == "Changed" and "Split" in entry.command)


# ---- commands


def proposed(facts, is_it):
    """The first mail that proposes a command, and the place where it is decided or not."""
    for place, mails in facts.accepts.items():
        for mail in mails:
            if is_it(mail.fields["command"]):
                return place, mail
    return None, None


def decided_at(facts, is_it):
    """The last entry with a command."""
    return next((one for one in reversed(facts.decided.entries) if is_it(one.command)), None)


def of_queue(facts, group, what):
    """Why a command that a node has queued is not proposed, line by line."""
    lines, lock, why = [], facts.lock(group), facts.leading(group)
    slots = facts.open_slots(group)
    if lock:
        lines += [f"{what} waits in the queue, behind a lock", *lock]
    elif why:
        lines += [f"{what} waits in the queue for a settled leader", why]
    elif len(slots) >= OPEN_SLOTS:
        lines.append(f"{what} waits in the queue behind {len(slots)} open slots")
    else:
        lines.append(f"{what} waits in the queue")
    return lines + [facts.majority(group, slot) for slot in slots]


def of_command(facts, group, is_it, what):
    """Where a command of a node stands, line by line; nothing where it is decided."""
    place, mail = proposed(facts, is_it)
    if mail is None:
        return of_queue(facts, group, what)
    lines = [f"{what} was proposed in row {mail.row} at slot {place[1]} of {place[0]}"]
    for slot in facts.open_slots(place[0]):
        if slot <= place[1]:
            lines.append(facts.majority(place[0], slot))
    why = facts.leading(place[0])
    return lines + [why] if why else lines


# ---- orders


def of_order(facts, number):
    """Where an open order waits, line by line; nothing where the desk got its result."""
    told = next(
        (row for row in facts.journal.rows if row.event == "Told" and row.of["number"] == number),
        None,
    )
    if told is None:
        return [f"order {number} was told to nobody: its line was skipped or does not stand there"]
    if any(mail.kind == "Told" and mail.fields["order"] == number for mail in facts.journal.mails):
        return []
    group = journals.kind_and_fields(told.of["order"])[1]["group"]

    def is_it(command):
        return journals.kind_and_fields(command)[1].get("order") == number

    entry = decided_at(facts, is_it)
    head = f"order {number}, told to n{told.who} in row {told.number}:"
    if told.who in facts.pending.crashed:
        head += f" n{told.who} has crashed, and nobody else tells of it;"
    if entry is None:
        return [head, *of_command(facts, group, is_it, "it")]
    said = journals.kind_and_fields(entry.command)[1]
    tx = said.get("tx") or said.get("child")
    lines = [head, f"it was decided in row {entry.row}: {journals.decision(entry)}"]
    return lines + (facts.transaction(tx) if tx else [])


def open_orders(facts):
    """The numbers of the orders of which the desk got no result."""
    told = {mail.fields["order"] for mail in facts.journal.mails if mail.kind == "Told"}
    numbers = [row.of["number"] for row in facts.journal.rows if row.event == "Told"]
    return [number for number in numbers if number not in told]


# ---- requests


def of_answer(facts, mail, answers):
    """What became of the last answer to a client's last request, line by line."""
    last = answers[-1]
    lines = [f"n{mail.receiver} answered: {facts.mail_words(last)}"]
    if last.number not in facts.taken:
        return lines
    if "Value" in last.fields["answer"]:
        return [*lines, "the client had taken another one before, or asks no more"]
    return [*lines, "the client has not asked anew since: a tick makes it ask again"]


def turned_away(facts, actor, seq):
    """Who said to a client that it does not lead, how often, and the last cause."""
    found = {}
    for mail in facts.journal.mails:
        if mail.cause and (mail.receiver, mail.fields["seq"]) == (actor, seq):
            count, _ = found.get(mail.sender, (0, ""))
            found[mail.sender] = count + 1, mail.cause
    return [
        f"n{node} answered not leader {'once' if count == 1 else f'{count} times'}: {cause}"
        for node, (count, cause) in sorted(found.items())
    ]


def of_request(facts, client, seq):
    """What an unanswered request waits for, line by line."""
    actor = client + journals.NODES
    asked = [
        mail
        for mail in facts.journal.mails
        if mail.kind == "Request" and mail.sender == actor and mail.fields["seq"] == seq
    ]
    if not asked:
        gone = actor in facts.pending.gone
        return [
            f"it was not sent: c{client} waits for its request {seq - 1}"
            if gone
            else f"it was not sent: c{client} was not told to go"
        ]
    last = asked[-1]
    times = "once" if len(asked) == 1 else f"{len(asked)} times, at last"
    lines = [f"asked {times} of n{last.receiver} in row {last.row}"]
    lines += facts.no_majority(last.fields["group"]) + turned_away(facts, actor, seq)
    if last.number not in facts.taken:
        return [*lines, facts.mail_words(last)]
    row = facts.taken[last.number]
    answers = [
        mail
        for mail in facts.journal.mails
        if mail.kind == "Answer"
        and (mail.receiver, mail.fields["seq"]) == (actor, seq)
        and mail.row >= row
        and mail.sender == last.receiver
    ]
    lines.append(f"n{last.receiver} got it in row {row}, as mail {last.number}")
    if answers:
        return lines + of_answer(facts, last, answers)
    return lines + held(facts, last, client, seq)


def held(facts, mail, client, seq):
    """What a request waits for that a node holds, line by line."""
    group = mail.fields["group"]
    if mail.receiver in facts.pending.crashed:
        return [f"n{mail.receiver} has crashed, and its queue with it"]

    def is_it(command):
        kind, said = journals.kind_and_fields(command)
        return kind == "Call" and (said["client"], said["seq"]) == (client, seq)

    entry = decided_at(facts, is_it)
    if entry is None:
        return of_command(facts, group, is_it, "it")
    lines = [f"it was decided in row {entry.row}: {journals.decision(entry)}"]
    kind, _ = journals.kind_and_fields(entry.effect)
    if kind == "NoEffect":
        lines.append("it had no effect, and is to be decided again")
        return lines + of_queue(facts, group, "it")
    return [*lines, f"n{mail.receiver} has not heard of that, or not executed it yet"]
