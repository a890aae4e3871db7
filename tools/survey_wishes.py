"""What a run may be wished to come to, for `survey --shrink`."""

import difflib
import re

from survey_heal import worded
from survey_runs import Refused

FORMS = ("unanswered", "unanswered C N", "open", "open I", "status S", "has WORDS")
WORDS = ("unanswered", "open", "status", "has")


def refuse(said, why):
    """Refuses a wish, with all that there are."""
    raise Refused(f"--shrink '{said}': {why}; a wish is one of: {', '.join(FORMS)}")


def wish(said, text):
    """The test of a report and a status for a wish about the runs of a scenario."""
    word, _, more = said.strip().partition(" ")
    numbers = more.split()
    if word == "has" and more.strip():
        return lambda status, report: status is not None and more.strip() in report
    if word not in WORDS:
        near = difflib.get_close_matches(word, WORDS, 1, 0.6)
        refuse(said, f"there is no such wish{f', one that is near is {near[0]}' if near else ''}")
    if not all(one.isdigit() for one in numbers):
        refuse(said, "numbers stand behind that word")
    if word == "status" and len(numbers) == 1:
        return lambda status, report: status == int(numbers[0])
    if word == "unanswered" and len(numbers) in (0, 2):
        return unanswered(said, numbers, text)
    if word == "open" and len(numbers) in (0, 1):
        return is_open(said, numbers, text)
    return refuse(said, "it has too many numbers, or too few")


def requests(text):
    """How many requests each client has."""
    counts, client = {}, None
    for words in worded(text):
        if words[0] == "client":
            client = words[1]
            counts[client] = 0
        elif words[0] == "end":
            client = None
        elif client is not None:
            counts[client] += 1
    return counts


def unanswered(said, numbers, text):
    """That a request is unanswered although no mail is pending."""
    counts = requests(text)
    if numbers and not 1 <= int(numbers[1]) <= counts.get(numbers[0], 0):
        count = counts.get(numbers[0], "no section, and no")
        refuse(said, f"client {numbers[0]} has {count} requests")
    start = " ".join(["unanswered", *numbers, ""])
    return at_rest(re.compile(rf"^{re.escape(start)}", re.MULTILINE))


def is_open(said, numbers, text):
    """That an order is open although no mail is pending."""
    count = sum(words[0] == "order" for words in worded(text))
    if count < (int(numbers[0]) if numbers else 1) or numbers == ["0"]:
        refuse(said, f"the scenario has {count or 'no'} orders")
    number = numbers[0] if numbers else r"\d+"
    return at_rest(re.compile(rf"^order {number} open$", re.MULTILINE))


def at_rest(found):
    """That a report has a line, and no mail is pending."""
    return lambda status, report: (
        status in (0, 6) and bool(found.search(report)) and "\nquiet yes\n" in report
    )
