#!/usr/bin/env python3
"""The fold and its cure as a picture: reads what host/examples/fold.rs prints, writes docs/fold.svg. `host/test fold` runs both.

Curves and derivatives are drawn through the points that the example prints; nothing is worked out here."""
import pathlib
import struct
import sys

WIDTH, HEIGHT, PANEL, GAP = 900, 500, 440, 20
INK, FAINT, RIGHT, WRONG = "#24292f", "#6e7781", "#0969da", "#cf222e"
OUT = pathlib.Path(__file__).resolve().parent.parent / "fold.svg"


def bits(value):
    return struct.unpack(">Q", struct.pack(">d", value))[0]


class Site:
    def __init__(self, words):
        self.knot, *self.point = map(float, words[:3])
        self.times = int(words[3])
        self.sent = " ".join(words[4:])


class Section:
    def __init__(self, lines, name):
        own = [line.split() for line in lines if line.split()[1:2] == [name]]
        self.sites = [Site(words[2:]) for words in own if words[0] == "site"]
        self.control = [tuple(map(float, words[2:])) for words in own if words[0] == "control"]
        self.curve = [tuple(map(float, words[2:])) for words in own if words[0] == "curve"]

    def tangent(self, site):
        return next(tangent for knot, _, _, *tangent in self.curve if knot == site.knot)


class Panel:
    """Metres onto a panel that has its own paper, for pages of any colour: one scale for both directions, y upwards.
    Below it the derivative over the knots."""

    SCALE, SLOPE, ZERO = 2450.0, 13.0, 350.0

    def __init__(self, left):
        self.left = left
        self.parts = [f'<rect x="{left + 0.5}" y="0.5" width="{PANEL - 1}" height="{HEIGHT - 1}" rx="6" fill="#ffffff" stroke="{FAINT}"/>']

    def at(self, x, y):
        return f"{self.left + 45 + (x - 0.226) * self.SCALE:.2f},{236 - (y - 0.105) * self.SCALE:.2f}"

    def over(self, knot, slope):
        return f"{self.left + 55 + knot * 2200:.2f},{self.ZERO - slope * self.SLOPE:.2f}"

    def line(self, points, colour, width, more=""):
        self.parts.append(f'<path d="M{" L".join(points)}" fill="none" stroke="{colour}" stroke-width="{width}" stroke-linejoin="round"{more}/>')

    def dot(self, place, radius, colour):
        x, y = place.split(",")
        self.parts.append(f'<circle cx="{x}" cy="{y}" r="{radius}" fill="{colour}"/>')

    def text(self, y, words, colour=INK, size=12, weight="normal", x=20):
        self.parts.append(f'<text x="{self.left + x}" y="{y}" fill="{colour}" font-size="{size}" font-weight="{weight}">{words}</text>')

    def section(self, section, marked, colour):
        self.line([self.at(*point) for point in section.control], FAINT, 1, ' stroke-dasharray="3 4"')
        self.line([self.at(x, y) for _, x, y, _, _ in section.curve], colour, 3)
        for site in section.sites:
            self.dot(self.at(*site.point), *((6, colour) if site in marked else (4, INK)))
        self.text(220, "sent in mm", FAINT, x=75)
        self.text(220, "sent in inches", FAINT, x=255)

    def derivative(self, section, marked, colour):
        self.line([self.over(0, 0), self.over(section.curve[-1][0], 0)], FAINT, 1)
        for axis, more in ((3, ""), (4, ' stroke-dasharray="6 3"')):
            self.line([self.over(sample[0], sample[axis]) for sample in section.curve], colour, 2, more)
            for site in marked:
                self.dot(self.over(site.knot, section.tangent(site)[axis - 3]), 4, colour)
        self.text(self.ZERO + 4, "0", FAINT, x=40)
        self.text(258, "derivative of x, and dashed of y, over the knots", FAINT, x=55)


def shown(tangent):
    return f"({tangent[0]:.2f}, {tangent[1]:.2f})".replace("-", "−")


def metres(value):
    return f"{value:.2e} m".replace("-", "−")


def value(knot):
    return f"{knot!r} m, bits …{bits(knot) & 0xFFFFF:05x}"


def hand_panel(hand, at):
    low, high = hand.sites[at : at + 2]
    panel = Panel(0)
    panel.text(32, "By hand: two knots, a last place apart", WRONG, 17, "bold")
    panel.section(hand, (low, high), WRONG)
    panel.derivative(hand, (low, high), WRONG)
    for y, site in ((416, low), (436, high)):
        panel.text(y, f"{site.sent.replace('*', '×')} = {value(site.knot)}")
    panel.text(456, f"span {metres(high.knot - low.knot)}, with a point at each end")
    panel.text(480, f"tangent {shown(hand.tangent(low))}: rounding alone, and backwards", WRONG, 14)
    return panel


def merged_panel(merged, at, tolerance, exact):
    one = merged.sites[at]
    panel = Panel(PANEL + GAP)
    panel.text(32, "The library's knot vector: one knot, twice", RIGHT, 17, "bold")
    panel.section(merged, (one,), RIGHT)
    panel.derivative(merged, (one,), RIGHT)
    panel.text(416, f"{one.sent.replace(', ', ' and ')} → {value(one.knot)}, × {one.times}")
    panel.text(436, f"within {metres(tolerance)}, a last place, with an inch of 0.0254 m;")
    panel.text(456, f"over tenths of a mm → {value(exact)}, × 2, within 0")
    panel.text(480, f"tangent {shown(merged.tangent(one))}", RIGHT, 14)
    return panel


def folds(hand, merged):
    """Where one knot is two by hand and one by the library, and the tangent by hand turned round."""
    return [
        at
        for at, (a, b) in enumerate(zip(hand.sites, hand.sites[1:]))
        if bits(b.knot) - bits(a.knot) == 1
        and merged.sites[at].times == 2
        and sum(m * n for m, n in zip(hand.tangent(a), merged.tangent(merged.sites[at]))) < 0
    ]


def main():
    lines = sys.stdin.read().splitlines()
    hand, merged = Section(lines, "hand"), Section(lines, "merged")
    tolerance, exact = (float(line.split()[1]) for word in ("tolerance", "exact") for line in lines if line.startswith(word))
    found = folds(hand, merged) if len(merged.sites) == len(hand.sites) - 1 else []
    if len(found) != 1:
        sys.exit("no picture: it needs one knot that is two by hand and one by the library, and a tangent turned round")
    panels = hand_panel(hand, found[0]), merged_panel(merged, found[0], tolerance, exact)
    OUT.write_text(
        f'<svg xmlns="http://www.w3.org/2000/svg" viewBox="0 0 {WIDTH} {HEIGHT}" width="{WIDTH}" height="{HEIGHT}" font-family="sans-serif">\n'
        "<title>A cubic B-spline through one knot that arrived twice: folded over two knots a last place apart, smooth over one knot of multiplicity 2</title>\n"
        + "".join(f"{part}\n" for panel in panels for part in panel.parts)
        + "</svg>\n"
    )


main()
