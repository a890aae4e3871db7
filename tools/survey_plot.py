"""Draws what a survey found, for `survey`: of each scenario two distributions, beside each other.

On the left how large a share of the requests each run answered, on the right how many rows each
answered request took, on a scale that doubles. The picture is SVG, with nothing from elsewhere.
"""

import html
import math
import statistics

WIDTH, LABELS, PANEL, GAP = 960, 170, 330, 50
ROW, BARS, TOP, BOTTOM = 74, 44, 58, 40
SHARES = 20  # columns of the left panel
STEPS = 4  # columns of the right panel for each doubling
STYLE = """
text { font: 12px system-ui, "DejaVu Sans", Helvetica, sans-serif; fill: #1b2230 }
.title { font-weight: 650; font-size: 13.5px } .name { font-weight: 650 } .soft { fill: #626b7a }
.back { fill: #fffdf8 } .grid { stroke: #e3ddd0 } .base { stroke: #8a8f98 }
.share { fill: #7fa8d4; stroke: #0a5ca8 } .rows { fill: #8cc9bd; stroke: #0f766e }
.middle { stroke: #b3261e; stroke-width: 2 } .value { fill: #b3261e; font-weight: 650 }
"""


def text(x, y, said, look="", anchor="start"):
    place = f'x="{x:.1f}" y="{y:.1f}" text-anchor="{anchor}"'
    return f'<text {place} class="{look}">{html.escape(said)}</text>'


def line(x0, y0, x1, y1, look):
    return f'<path class="{look}" d="M{x0:.1f} {y0:.1f}L{x1:.1f} {y1:.1f}"/>'


def columns(counts, x, y, wide, look):
    """Bars on a line, as high as their counts."""
    most = max(counts, default=0)
    parts = []
    for place, count in enumerate(counts):
        if count:
            high = max(1.5, BARS * count / most)
            parts.append(
                f'<rect class="{look}" x="{x + place * wide:.1f}" y="{y - high:.1f}"'
                f' width="{wide - 1:.1f}" height="{high:.1f}"/>'
            )
    return parts


def middle(x, y, said, right):
    """A line at the median, with its value beside it where there is room."""
    is_left = x > right - 60
    mark = text(
        x - 5 if is_left else x + 5, y - BARS - 4, said, "value", "end" if is_left else "start"
    )
    return [line(x, y, x, y - BARS - 12, "middle"), mark]


def shares(outcomes, y):
    """The left panel of one scenario."""
    found = [outcome.share() for outcome in outcomes if outcome.requests]
    if not found:
        return [text(LABELS, y - 8, "no request", "soft")]
    counts = [0] * SHARES
    for share in found:
        counts[min(SHARES - 1, int(share * SHARES))] += 1
    at = statistics.median(found)
    bars = columns(counts, LABELS, y, PANEL / SHARES, "share")
    return bars + middle(LABELS + at * PANEL, y, f"{at:.0%}", LABELS + PANEL)


def place_of(rows, most):
    """How far to the right a number of rows stands, from 0 to 1."""
    return math.log2(max(1, rows)) / most


def took(outcomes, y, most):
    """The right panel of one scenario."""
    left = LABELS + PANEL + GAP
    found = [rows for outcome in outcomes for rows in outcome.took]
    if not found:
        return [text(left, y - 8, "no request was answered", "soft")]
    counts = [0] * (most * STEPS)
    for rows in found:
        counts[min(len(counts) - 1, int(place_of(rows, most) * len(counts)))] += 1
    at = statistics.median(found)
    bars = columns(counts, left, y, PANEL / len(counts), "rows")
    return bars + middle(left + place_of(at, most) * PANEL, y, f"{at:g}", left + PANEL)


def grid(high, most):
    """The scales of both panels."""
    parts, bottom, left = [], high - BOTTOM, LABELS + PANEL + GAP
    for share in range(0, 101, 25):
        x = LABELS + share / 100 * PANEL
        parts += [
            line(x, TOP, x, bottom, "grid"),
            text(x, bottom + 17, f"{share}%", "soft", "middle"),
        ]
    for power in range(0, most + 1, 2 if most > 8 else 1):
        x = left + power / most * PANEL
        parts += [
            line(x, TOP, x, bottom, "grid"),
            text(x, bottom + 17, str(2**power), "soft", "middle"),
        ]
    return parts


def picture(surveyed):
    """The picture of some scenarios: names, with the outcomes of their runs."""
    high = TOP + ROW * len(surveyed) + BOTTOM
    longest = max(
        (rows for _, outcomes in surveyed for one in outcomes for rows in one.took), default=2
    )
    most = max(1, math.ceil(math.log2(longest + 1)))
    left = LABELS + PANEL + GAP
    parts = [
        f'<svg xmlns="http://www.w3.org/2000/svg" viewBox="0 0 {WIDTH} {high}"'
        f' width="{WIDTH}" height="{high}">',
        f"<style>{STYLE}</style>",
        f'<rect class="back" width="{WIDTH}" height="{high}" rx="8"/>',
        text(LABELS, 24, "Share of its requests that a run answered", "title"),
        text(LABELS, 42, "how many runs; red: the median", "soft"),
        text(left, 24, "Rows from a request's issue to its answer", "title"),
        text(left, 42, "how many answered requests; red: the median", "soft"),
        *grid(high, most),
    ]
    for place, (name, outcomes) in enumerate(surveyed):
        y = TOP + ROW * (place + 1) - 8
        asked = sum(len(outcome.requests) for outcome in outcomes)
        answered = sum(outcome.answered for outcome in outcomes)
        parts += [
            line(LABELS, y, LABELS + PANEL, y, "base"),
            line(left, y, left + PANEL, y, "base"),
            text(14, y - 28, name.replace("_", " "), "name"),
            text(14, y - 12, f"{len(outcomes)} runs", "soft"),
            text(14, y + 2, f"answered {answered / asked:.0%}" if asked else "no requests", "soft"),
            *shares(outcomes, y),
            *took(outcomes, y, most),
        ]
    return "\n".join([*parts, "</svg>", ""])
