"""Draws what a row costs, for `rows`: over requests, over clients and over groups, ours and the other's.

Each panel has one scale of microseconds of processors a row, from nothing on, and a scale to the right
that doubles. A line is one word; ours is drawn through, the other's is dashed. The picture is SVG, with
nothing from elsewhere.
"""

import html
import math

AXES = ["requests", "clients", "groups"]
PANEL, HIGH, LEFT, GAP, TOP, BOTTOM = 280, 240, 56, 44, 78, 46
COLOURS = ["#0a5ca8", "#0f766e", "#b45309", "#86198f", "#b3261e", "#4d7c0f"]
STYLE = """
text { font: 12px system-ui, "DejaVu Sans", Helvetica, sans-serif; fill: #1b2230 }
.title { font-weight: 650; font-size: 13.5px } .name { font-weight: 650 } .soft { fill: #626b7a }
.back { fill: #fffdf8 } .grid { stroke: #e3ddd0; fill: none } .base { stroke: #8a8f98; fill: none }
"""


def text(x, y, said, look="", anchor="start"):
    return f'<text x="{x:.1f}" y="{y:.1f}" text-anchor="{anchor}" class="{look}">{html.escape(said)}</text>'


def line(points, look="", drawing=""):
    path = "L".join(f"{x:.1f} {y:.1f}" for x, y in points)
    return f'<path class="{look}" {drawing} d="M{path}"/>'


def step_of(most):
    """A round step of a scale, of which some five go up to the most."""
    rough = most / 5
    power = 10 ** math.floor(math.log10(rough))
    return next(power * k for k in (1, 2, 5, 10) if power * k >= rough)


class Panel:
    """One axis, with all that was measured along it."""

    def __init__(self, axis, cases, left, most):
        self.axis, self.left, self.most = axis, left, most
        self.cases = [case for case in cases if case.axis == axis]
        places = sorted({case.at for case in self.cases})
        self.places, self.low = places, math.log2(places[0])
        self.wide = max(math.log2(places[-1]) - self.low, 1.0)

    def x(self, at):
        return self.left + 16 + (PANEL - 32) * (math.log2(at) - self.low) / self.wide

    def y(self, cost):
        return TOP + HIGH * (1 - cost / self.most)

    def scales(self):
        bottom, step = TOP + HIGH, step_of(self.most)
        parts = [text(self.left, TOP - 14, f"over {self.axis}", "name")]
        for k in range(int(self.most / step + 1.000001)):
            y = self.y(k * step)
            parts.append(line([(self.left, y), (self.left + PANEL, y)], "grid" if k else "base"))
            parts.append(text(self.left - 6, y + 4, f"{k * step:g}", "soft", "end"))
        for at in self.places:
            parts.append(text(self.x(at), bottom + 18, str(at), "soft", "middle"))
        return parts

    def curve(self, word, i, colour):
        """The line of one word, by ours (0) or by the other (1)."""
        points = [(self.x(case.at), self.y(case.figures[i][2])) for case in self.cases if case.word == word]
        dashes = 'stroke-dasharray="5 4"' if i else ""
        parts = [line(points, "", f'fill="none" stroke="{colour}" stroke-width="2" {dashes}')] if points else []
        fill = "#fffdf8" if i else colour
        return parts + [f'<circle cx="{x:.1f}" cy="{y:.1f}" r="3" fill="{fill}" stroke="{colour}"/>' for x, y in points]


def legend(words, names):
    parts, x = [], LEFT
    for word, colour in words.items():
        parts.append(line([(x, 46), (x + 22, 46)], "", f'stroke="{colour}" stroke-width="2"'))
        parts.append(text(x + 28, 50, word))
        x += 44 + 7 * len(word)
    if len(names) > 1:
        parts.append(line([(x, 46), (x + 22, 46)], "", 'stroke="#626b7a" stroke-width="2" stroke-dasharray="5 4"'))
        parts.append(text(x + 28, 50, f"dashed: the {names[1]}", "soft"))
    return parts


def drawn(cases, names):
    """The picture of what was measured of these commands."""
    cases = [case for case in cases if case.axis in AXES and case.rows]
    axes = [axis for axis in AXES if any(case.axis == axis for case in cases)]
    words = {word: COLOURS[k % len(COLOURS)] for k, word in enumerate(dict.fromkeys(case.word for case in cases))}
    most = max((figures[2] for case in cases for figures in case.figures), default=0.0) * 1.06 or 1.0
    width, height = LEFT + len(axes) * (PANEL + GAP), TOP + HIGH + BOTTOM
    parts = [
        f'<svg xmlns="http://www.w3.org/2000/svg" viewBox="0 0 {width} {height}" width="{width}" height="{height}">',
        f"<style>{STYLE}</style>",
        f'<rect class="back" width="{width}" height="{height}"/>',
        text(LEFT, 22, "What a row costs, in microseconds of processors", "title"),
        *legend(words, names),
    ]
    for k, axis in enumerate(axes):
        panel = Panel(axis, cases, LEFT + k * (PANEL + GAP), most)
        parts += panel.scales()
        for i in reversed(range(len(names))):
            for word, colour in words.items():
                parts += panel.curve(word, i, colour)
    return "\n".join(parts + ["</svg>", ""])
