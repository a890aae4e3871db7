"""Explains which word of a history the program has refused, and which form stands there.

It serves `refusal` beside this file, which gives it a text whose first line is that of a history. Of
the lines before the one that is meant it looks at those of the same process alone.
"""

import difflib

FORMS = {
    "get": "P get K",
    "put": "P put K V",
    "del": "P del K",
    "add": "P add K V",
    "cas": "P cas K E V",
    "none": "P none",
    "value": "P value V",
    "ok": "P ok",
    "no": "P no",
    "fail": "P fail",
    "lost": "P lost",
}
ASKS = ("get", "put", "del", "add", "cas")
KEY, VALUE = 64, 256  # the most bytes of a name
HEADER = ["scatter", "history", "1"]


def is_history(text):
    """Whether a text begins as a history does."""
    return bool(text.all) and text.all[0].split() == HEADER


def not_a_history(text):
    said = ["line 1 is scatter history 1"]
    if text.words[:1] == ["scatter"]:
        return [*said, "a scenario is for ./scatter run, and its journal for ./scatter audit"]
    return said


def form_of(text):
    return FORMS.get(text.words[1], "") if len(text.words) > 1 else ""


def not_a_line(text):
    form = form_of(text)
    if not form:
        known = ", ".join(FORMS)
        word = text.words[1] if len(text.words) > 1 else ""
        near = difflib.get_close_matches(word.lower(), FORMS, 1, 0.6)
        said = [f"its second word is none of {known}"]
        return [*said, f"a word that is near: {near[0]}"] if near else said
    if len(text.words) != len(form.split()):
        return [f"it has {len(text.words)} words, and its form is {form}"]
    before = last_of(text)
    return [f"no is for add and cas alone, and line {before[0]} is {' '.join(before[1])}"] if before else []


def last_of(text):
    """The last line before of the same process, with its number."""
    mine = [one for one in text.before[1:] if one[1][0] == text.words[0]]
    return mine[-1] if mine else None


def bad_number(text):
    return [f"the word {text.words[0][:30]} stands where {form_of(text)} has P", "P is 1 to 4294967295"]


def bad_name(most, what):
    def said(text):
        form = form_of(text)
        return [f"its form is {form}", f"{what} has 1 to {most} bytes, each from 33 to 126"]

    return said


def has_request(text):
    before = last_of(text)
    return [f"the request of line {before[0]} is under way: {' '.join(before[1])}"] if before else []


def has_none(text):
    before = last_of(text)
    if not before:
        return [f"process {text.words[0]} did not ask anything before"]
    return [f"its last request ended with line {before[0]}"]


def is_lost(text):
    lost = [one for one in text.before[1:] if one[1] == [text.words[0], "lost"]]
    said = [f"it was told lost with line {lost[0][0]}"] if lost else []
    return [*said, "behind lost a process asks on under another number"]


REASONS = {
    "not a history": not_a_history,
    "not a line of a history": not_a_line,
    "bad number": bad_number,
    "bad key": bad_name(KEY, "a key"),
    "bad value": bad_name(VALUE, "a value"),
    "process has a request": has_request,
    "process has no request": has_none,
    "process is lost": is_lost,
}
