"""Draws what sweeps heal, for `survey --heal`.

Of each scenario there are two panels beside each other: how large a share of the requests is open
before a sweep and after sweeps of 0 to 12 ticks a node, and the same of the orders. The picture is
SVG, with nothing from elsewhere.
"""

from survey_heal import MOST, many
from survey_plot import STYLE, line, text

WIDTH, LABELS, PANEL, GAP = 960, 190, 330, 60
ROW, HIGH, TOP, BOTTOM = 108, 62, 58, 40
PLACES = MOST + 2  # before the sweep, and after 0 to 12 ticks
LINES = """
.curve { fill: none; stroke-width: 2 } .of-requests { stroke: #0a5ca8; fill: #0a5ca8 }
.of-orders { stroke: #0f766e; fill: #0f766e } .curve.of-requests, .curve.of-orders { fill: none }
"""


def place(left, at):
    """Where a column stands; the one before the sweep is a little apart."""
    return left + (at + (0.4 if at else 0)) * PANEL / (PLACES - 0.6)


def said(share):
    percent = share * 100
    return f"{percent:.0f}%" if percent >= 10 or percent == 0 else f"{percent:.2g}%"


def curve(left, y, shares, most, look):
    """The dots of one panel: the first apart, the others in a line."""
    dots = [(place(left, at), y - HIGH * share / most) for at, share in enumerate(shares)]
    after = "L".join(f"{x:.1f} {dot:.1f}" for x, dot in dots[1:])
    parts = [f'<path class="curve {look}" d="M{after}"/>'] if after else []
    parts += [f'<circle class="{look}" cx="{x:.1f}" cy="{dot:.1f}" r="3"/>' for x, dot in dots]
    for at in (0, 1, len(shares) - 1):
        x, dot = dots[at]
        parts.append(text(x, dot - 7, said(shares[at]), "soft", "middle"))
    return parts


def panel(left, y, shares, look, nothing):
    """One panel, as high as its greatest share."""
    parts = [line(left, y, left + PANEL, y, "base")]
    if not shares or shares[0] is None:
        return [*parts, text(left, y - 8, nothing, "soft")]
    return parts + curve(left, y, shares, max(shares) or 1.0, look)


def scale(left, high):
    """The columns of a panel."""
    bottom, parts = high - BOTTOM, []
    for at in range(PLACES):
        x = place(left, at)
        name = "before" if at == 0 else str(at - 1)
        parts += [
            line(x, TOP, x, bottom, "grid"),
            text(x, bottom + 17, name, "soft", "middle"),
        ]
    return parts


def row(name, healed, y):
    """The name of a scenario, and its panels."""
    left = LABELS + PANEL + GAP
    opened = [healed.before, *healed.over]
    nodes = len(healed.cast.living)
    return [
        text(14, y - 34, name.replace("_", " "), "name"),
        text(14, y - 18, f"{many(healed.runs, 'run')}, {many(nodes, 'living node')}", "soft"),
        text(14, y - 2, many(len(healed.cast.clients), "client"), "soft"),
        *panel(
            LABELS, y, [one.request_share() for one in opened], "of-requests", "no requests"
        ),
        *panel(left, y, [one.order_share() for one in opened], "of-orders", "no orders"),
    ]


def picture(surveyed):
    """The picture of some scenarios: names, with what sweeps came to."""
    high = TOP + ROW * len(surveyed) + BOTTOM
    left = LABELS + PANEL + GAP
    parts = [
        f'<svg xmlns="http://www.w3.org/2000/svg" viewBox="0 0 {WIDTH} {high}"'
        f' width="{WIDTH}" height="{high}">',
        f"<style>{STYLE}{LINES}</style>",
        f'<rect class="back" width="{WIDTH}" height="{high}" rx="8"/>',
        text(LABELS, 24, "Share of the requests that is open", "title"),
        text(LABELS, 42, "before a sweep, and after one of N ticks a node", "soft"),
        text(left, 24, "Share of the orders that is open", "title"),
        text(left, 42, "before a sweep, and after one of N ticks a node", "soft"),
        *scale(LABELS, high),
        *scale(left, high),
    ]
    for at, (name, healed) in enumerate(surveyed):
        parts += row(name, healed, TOP + ROW * (at + 1) - 10)
    return "\n".join([*parts, "</svg>", ""])
