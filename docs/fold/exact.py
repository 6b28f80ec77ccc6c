#!/usr/bin/env python3
"""The sections that host/examples/fold.rs prints, solved again in exact fractions from the same knots and points: the
tangent at the joint, and how far the example's control points lie from the exact ones. `host/test fold` runs it."""
import sys
from fractions import Fraction

DEGREE = 3


def quotient(left, right, x):
    return (x - left) / (right - left) if left < right else Fraction(0)


def functions(knots, degree, x):
    own = max(at for at, (a, b) in enumerate(zip(knots, knots[1:])) if a < b and a <= x)
    below = [Fraction(at == own) for at in range(len(knots) - 1)]
    for reach in range(1, degree + 1):
        rising = [quotient(a, b, x) for a, b in zip(knots, knots[reach:])]
        below = [rising[at] * below[at] + (1 - rising[at + 1]) * below[at + 1] for at in range(len(below) - 1)]
    return below


def derivatives(knots, x):
    below = functions(knots, DEGREE - 1, x)
    slopes = [quotient(a, b, 1) - quotient(a, b, 0) for a, b in zip(knots, knots[DEGREE:])]
    return [DEGREE * (slopes[at] * below[at] - slopes[at + 1] * below[at + 1]) for at in range(len(below) - 1)]


def secant(a, b):
    return [(q - p) / (b[0] - a[0]) for p, q in zip(a[1:3], b[1:3])]


def parabola(before, own, after):
    left, right = own[0] - before[0], after[0] - own[0]
    return [(right * d + left * e) / (left + right) for d, e in zip(secant(before, own), secant(own, after))]


def solved(rows):
    for at in range(len(rows)):
        pivot = next(row for row in rows[at:] if row[at])
        rows.remove(pivot)
        rows.insert(at, [number / pivot[at] for number in pivot])
        for row in rows[:at] + rows[at + 1 :]:
            times = row[at]
            row[:] = [number - times * over for number, over in zip(row, rows[at])]
    return [row[-2:] for row in rows]


def section(sites):
    knots = [sites[0][0]] * DEGREE + [site[0] for site in sites for _ in range(site[3])] + [sites[-1][0]] * DEGREE
    rows = [functions(knots, DEGREE, site[0]) + site[1:3] for site in sites]
    tangents = [(sites[0][0], secant(*sites[:2])), (sites[-1][0], secant(*sites[-2:]))]
    tangents += [(b[0], parabola(a, b, c)) for a, b, c in zip(sites, sites[1:], sites[2:]) if b[3] == 2]
    return knots, solved(rows + [derivatives(knots, knot) + tangent for knot, tangent in tangents])


def main():
    lines = [line.split() for line in sys.stdin]
    for name in ("hand", "merged"):
        own = [words for words in lines if words[1:2] == [name]]
        sites = [[Fraction(float(word)) for word in words[2:5]] + [int(words[5])] for words in own if words[0] == "site"]
        control = [[float(word) for word in words[2:]] for words in own if words[0] == "control"]
        knots, exact = section(sites)
        joint = min(sites, key=lambda site: abs(site[0] - Fraction(762, 10000)))
        tangent = [float(sum(w * p[axis] for w, p in zip(derivatives(knots, joint[0]), exact))) for axis in (0, 1)]
        apart = max(abs(float(p - Fraction(q))) for a, b in zip(exact, control) for p, q in zip(a, b))
        print(f"{name}, in exact fractions: tangent ({tangent[0]:.3f}, {tangent[1]:.3f}); control points within {apart:.1e} metre of these")


main()
