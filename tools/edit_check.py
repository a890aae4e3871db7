"""What the page of tools/edit says of a text that is refused: the line, the word, and the form there.

The program says which line is refused, and why; what should stand there is said as ./scatter says
it on standard error (tools/script/refusal).
"""

import importlib.machinery
import importlib.util
import os
import re
import sys

FOLDER = os.path.join(os.path.dirname(os.path.abspath(__file__)), "script")
SAID = re.compile(r"line (\d+): ([a-z ]+)")
MOST_LINES = 20_001  # that a text may have, and one: no line behind these is ever named
FIRST = ("unknown word", "out of place", "repeated", "bad boundary")


def load(name):
    """A module of tools/script."""
    sys.path.append(FOLDER)
    loader = importlib.machinery.SourceFileLoader(name, os.path.join(FOLDER, name))
    made = importlib.util.module_from_spec(importlib.util.spec_from_loader(name, loader))
    loader.exec_module(made)
    return made


refusal = load("refusal")
forms = refusal.forms


def first_lines(text):
    """So much of a text as can matter."""
    place = -1
    for _ in range(MOST_LINES):
        place = text.find(b"\n", place + 1)
        if place < 0:
            return text
    return text[: place + 1]


def explained(said, text):
    """What there is to say of a text that a program has refused so, as the page takes it."""
    found = SAID.fullmatch(said)
    if not found:
        return {"said": said, "line": 0, "word": None, "should": []}
    data = first_lines(text)
    line, reason = int(found[1]), found[2]
    lines = refusal.explain(said, data)
    should = [one for one in lines if not re.match(r"line \d+ is: ", one)]
    word = span(refusal.Text(data, line), reason)
    return {"said": said, "line": line, "word": word, "should": should}


def span(text, reason):
    """Where the refused word stands in its line: its first letter from 0, and the one behind it."""
    words = [(one.start(), one.end()) for one in re.finditer(r"[^ \t]+", text.here)]
    place = place_of(text, reason, [text.here[a:b] for a, b in words])
    if reason == "bad byte":
        bad = re.search(r"[^ -~\t]+", text.here)
        begin, end = bad.span() if bad else (0, 0)
    elif place is None or place >= len(words):
        return None
    else:
        begin, end = words[place]
    return [shown_length(text.here[:begin]), shown_length(text.here[:end])]


def shown_length(part):
    """How long a part of a line is for a browser, which counts in units of UTF-16."""
    shown = part.encode("latin-1").decode("utf-8", "replace")
    return len(shown.encode("utf-16-le")) // 2


def place_of(text, reason, words):
    """Which word of the line is meant, from 0; None for the whole line."""
    form = forms.form_of(words) or ""
    kinds = forms.kinds_of(form, len(words)) if form else []
    if reason in ("bad number", "bad key", "bad value"):
        return next((at for at, (_, kind) in enumerate(kinds) if is_bad(words[at], kind)), None)
    if reason == "unknown name":
        return unknown(text, kinds, words)
    if reason == "unknown word" and words[:1] == ["order"] and len(words) > 2:
        return 2
    if reason == "repeated" and words[:1] == ["group"]:
        return next((at for at in range(2, len(words)) if words[at] in words[2:at]), None)
    if reason == "repeated" or reason == "bad boundary":
        return 1
    return 0 if reason in FIRST else None


def is_bad(word, kind):
    return kind is not None and not kind.is_good(word)


def unknown(text, kinds, words):
    """The first word that names a node or a client which is not there."""
    nodes = text.lines_of("nodes")
    most = int(nodes[0][1][1]) if nodes else 0
    clients = {said[1] for _, said in text.lines_of("client")}
    for at, (name, _) in enumerate(kinds):
        word = words[at]
        bare = word[1:] if name == "A" else word
        is_node = name in ("N", "M") or (name == "A" and word[:1] == "n")
        is_client = name == "C" or (name == "A" and word[:1] == "c")
        if is_node and bare.isdigit() and int(bare) > most:
            return at
        if is_client and bare not in clients:
            return at
    return None
