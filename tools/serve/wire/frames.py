"""Mail as machines send it: `INPUT PLACE MAIL`, the sender's input and the place among the mail of that input.

MAIL is the text that the program printed, byte for byte. Its names stand in ascending order, so a
mail ends with its sender and its receiver; in a string a quotation mark stands behind a backslash,
so that nothing in a mail looks like its end.
"""

import re

ENDS = re.compile(rb',"from":(\d+),"to":(\d+)\}(?=[,\]])')
END = re.compile(rb',"from":(\d+),"to":(\d+)\}\Z')
# A command that a leader asks itself to accept, and one that it tells to have been executed.
ACCEPT, LEARN = b'{"body":{"Accept":', b'{"body":{"Learn":'
# Mail that is mostly not answered: a vote, of which one in two decides nothing, and what is learnt.
CALM = (b'{"body":{"Accepted":', LEARN)
SLOT = re.compile(rb'"group":"([\d.]+)","slot":(\d+)\}\},"from":\d+,"to":\d+\}\Z')
DESK = 0


def mails(line):
    """The mails of a printed list, each with its receiver."""
    found, begin = [], 1
    for end in ENDS.finditer(line):
        found.append((int(end.group(2)), line[begin : end.end()]))
        begin = end.end() + 1
    return found


def slot_of(mail):
    """The group and the slot of a mail to accept or to learn a command."""
    found = SLOT.search(mail)
    return found.groups() if found else None


def ends_of(mail):
    """Who sends a mail, and who receives it; nothing where its end is no mail's."""
    found = END.search(mail)
    return (int(found.group(1)), int(found.group(2))) if found else None


FRAME = re.compile(rb"\d{1,11} \d{1,11} (?=\{)")


def from_to(sender, receiver):
    """What finds each line of mail from one node to another: the mail is its first group."""
    return re.compile(rb'(?m)^\d{1,11} \d{1,11} (\{.*,"from":%d,"to":%d\})$' % (sender, receiver))


def mail_of(line):
    """The mail of a line with mail, or nothing where the line is none."""
    found = FRAME.match(line)
    return line[found.end() :] if found else None


def split(line):
    """The three parts of a line with mail: input and place as numbers, and the mail. Else a ValueError."""
    number, place, mail = line.split(b" ", 2)
    if not (number.isdigit() and place.isdigit() and len(number) < 12 and len(place) < 12):
        raise ValueError
    return int(number), int(place), mail
