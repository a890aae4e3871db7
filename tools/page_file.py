"""The file of tools/page: its parts put together, with a run in it, or without one for a frame."""

import json
import os

PARTS = os.path.join(os.path.dirname(os.path.abspath(__file__)), "page_parts")
SCRIPTS = [
    "data.js",
    "state.js",
    "build.js",
    "ring.js",
    "whole.js",
    "lanes.js",
    "cards.js",
    "lists.js",
    "states.js",
    "steps.js",
    "main.js",
]


def part(name):
    with open(os.path.join(PARTS, name), encoding="utf-8") as file:
        return file.read()


def quoted(text):
    """A text for HTML."""
    return text.replace("&", "&amp;").replace("<", "&lt;").replace(">", "&gt;")


def filled(title, data):
    """The whole file, with a run as JSON."""
    holes = {
        "{title}": quoted(title),
        "{style}": part("page.css"),
        "{data}": data.replace("<", "\\u003c"),
        "{script}": "\n".join(part(name) for name in SCRIPTS),
    }
    pieces = [part("page.html")]
    for hole, filling in holes.items():
        before, after = pieces.pop().split(hole, 1)
        pieces += [before, filling, after]
    return "".join(pieces)


def spelled(said):
    """A run as JSON."""
    return json.dumps(said, separators=(",", ":"))


def without_run():
    """The file for a frame, which is given its runs by the page around it."""
    return filled("rows", "null")
