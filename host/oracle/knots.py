#!/usr/bin/env python3
"""Knot vectors and the quotients of their spans (02, order 4), with answers worked out here from 02's sentences.

  knots.py write FOLDER   edges-knots.bin
  knots.py list           every record in words, with its answer
  knots.py longest        the request of 513 knots alone, as a stream

Each knot is converted by the account of merged.py, its table and both lists checked; a unit is written as in named.py. A
record has the form of the stored list. What 02's readings say of a case stands with it, and the program ends with an
error if its own account says otherwise.
"""
import itertools
import math
import pathlib
import struct
import sys

from edges import DENOMINATOR, FRACTION, MOST, RANGE, SHAPE, TABLE, UNKNOWN, Refused, bits, divided, given, of_bits
from edges import refused, request, table_bytes, value, words
from halves import UNITS
from merged import converted
from named import factors, list_of, ranked

KNOT_VECTOR, SPAN_QUOTIENT = 28, 29
ORDER, MULTIPLE, ARGUMENT = 14, 15, 16
KNOTS, DEGREE = 512, 9
LEAST, LARGEST = 5e-324, sys.float_info.max

LENGTHS = {"metre": None, "second": None, "inch": (0.0254, "metre"), "foot": (12.0, "inch"), "hour": (3600.0, "second")}
SPEEDS = {"metre": None, "second": None, "minute": (60.0, "second"), "hour": (60.0, "minute")}
ANGLES = {"metre": None, "radian": (1.0, "metre · metre^-1"), "degree": (math.pi / 180.0, "radian")}
ALONE = {"metre": None}
# Its second row is refused.
FAULTY = {"metre": None, "second": (0.0, "metre")}
MM = "Metric(-3) metre"


# ---- the calls: the runs, a quotient, or a refusal


def argued(count, tolerance, degree):
    if count not in range(1, KNOTS + 1) or degree not in range(1, DEGREE + 1):
        raise Refused(ARGUMENT)
    if math.isnan(tolerance) or math.isinf(tolerance) or tolerance < 0.0:
        raise Refused(ARGUMENT)


def merged_runs(table, knots, target, tolerance, degree):
    """Count, degree and tolerance; knot after knot its conversion; order; multiplicities."""
    argued(len(knots), tolerance, degree)
    values = [converted(table, x, own, target, True) for x, own in knots]
    if not all(map(math.isfinite, values)) or any(after < before for before, after in zip(values, values[1:])):
        raise Refused(ORDER)
    runs = []
    for x in values:
        if runs and x - runs[-1][0] <= tolerance:
            runs[-1].append(x)
        else:
            runs.append([x])
    if max(map(len, runs)) > degree + 1:
        raise Refused(MULTIPLE)
    return runs


def quotient(runs, place, x):
    of_knots = [run for run in runs for _ in run]
    if place + 1 >= len(of_knots):
        raise Refused(ARGUMENT)
    left, right = of_knots[place], of_knots[place + 1]
    return 0.0 if left is right else divided(x - left[0], right[0] - left[0])


# ---- bytes


def knots_of(knots, names):
    """A mark is never read."""
    return b"".join(struct.pack("<QI", bits(x), at % 3) + list_of(unit, names) for at, (x, unit) in enumerate(knots))


def rule_of(target, names, tolerance, degree):
    return struct.pack("<QI", number(tolerance)[0], degree) + list_of(target, names)


def span_of(rule, x, place):
    """The last four bytes are never read."""
    return rule + struct.pack("<QII", bits(x), place, 0xFFFFFFFF)


def number(tolerance):
    """A tolerance's bits and its value; whole numbers are bits."""
    return (tolerance, of_bits(tolerance)) if isinstance(tolerance, int) else (bits(tolerance), tolerance)


def written(answer):
    """A quotient, a refusal's number, or values with their multiplicities."""
    if isinstance(answer, float):
        return given(value(answer))
    if isinstance(answer, int):
        return refused(answer)
    return given(words(len(answer), 0) + b"".join(value(x) + words(n, 0) for x, n in answer))


# ---- records: a label, a request, its answer

records = []


def put(label, code, arguments, work, says):
    """`says` is what 02's reading answers, or None if only the account here does."""
    try:
        answer = work()
    except Refused as refusal:
        answer = refusal.args[0]
    if says is not None and written(answer) != written(says):
        sys.exit(f"knots: {label}: {answer}, not {says}")
    records.append((label, request(code, *arguments), answer))


def shown(knots, target, tolerance, degree):
    names = [f"{x!r} {unit}".removesuffix(" ").replace(".0 ", " ").replace(MM, "mm") for x, unit in knots]
    if len(names) > 20:
        names = [*names[:3], "..", names[-1], f"{len(names)} in all"]
    into = target.replace(MM, "mm") or "scalar"
    return f"{', '.join(names)} to {into}, tolerance {number(tolerance)[1]!r}, degree {degree}"


def asked(knots, target, tolerance, degree, units):
    """The three arguments, and what works the runs out."""
    names, table = list(units), ranked(units)
    own = [(x, factors(unit, names)) for x, unit in knots]
    arguments = [table_bytes(table), knots_of(knots, names), rule_of(target, names, tolerance, degree)]
    return arguments, lambda: merged_runs(table, own, factors(target, names), number(tolerance)[1], degree)


def ask(label, knots, target, says=None, tolerance=0.0, degree=3, units=LENGTHS):
    arguments, runs = asked(knots, target, tolerance, degree, units)
    label += f": {shown(knots, target, tolerance, degree)}"
    put(label, KNOT_VECTOR, arguments, lambda: [(run[0], len(run)) for run in runs()], says)


def span(label, knots, target, place, x, says=None, tolerance=0.0, degree=3, units=LENGTHS):
    (table, given_knots, rule), runs = asked(knots, target, tolerance, degree, units)
    label += f": knot {place}'s at {x!r}: {shown(knots, target, tolerance, degree)}"
    put(label, SPAN_QUOTIENT, [table, given_knots, span_of(rule, x, place)], lambda: quotient(runs(), place, x), says)


def both(label, knots, target, says, **rule):
    """A refusal that both calls have. The span's place is no span's, which would come last."""
    ask(label, knots, target, says, **rule)
    span(label, knots, target, len(knots), 0.0, says, **rule)


def of(unit, *values):
    return [(float(x), unit) for x in values]


def metres(*values):
    return of("metre", *values)


def once(*values):
    return [(float(x), 1) for x in values]


# ---- cases


def counts():
    """Reading 23: count, degree and tolerance."""
    fine = metres(0, 1, 2)
    both("no knot", [], "metre", ARGUMENT)
    for degree in (0, 10, 2**32 - 1):
        both("a degree", fine, "metre", ARGUMENT, degree=degree)
    for tolerance in (0x7FF8000000000000, 0xFFF0000000000001, math.inf, -math.inf, -1.0, -LEAST):
        both("a tolerance", fine, "metre", ARGUMENT, tolerance=tolerance)
    for degree in (1, 9):
        ask("a degree that is taken", fine, "metre", once(0, 1, 2), degree=degree)
    for tolerance in (-0.0, LEAST, of_bits(0x000FFFFFFFFFFFFF), 0.5):
        ask("a tolerance that is taken", fine, "metre", once(0, 1, 2), tolerance=tolerance)
    ask("-0 is 0", metres(1, 1, 2), "metre", [(1.0, 2), (2.0, 1)], tolerance=-0.0)
    ask("the greatest tolerance", fine, "metre", [(0.0, 3)], tolerance=LARGEST)
    ask("one knot", metres(7), "metre", [(7.0, 1)])
    ask("one knot of degree 1", of("inch", 1), "metre", [(0.0254, 1)], degree=1)


def before_all():
    """Reading 23: ARGUMENT of these before all else, TABLE too."""
    fine = metres(0, 1, 2)
    both("no knot, a faulty table", [], "metre", ARGUMENT, units=FAULTY)
    both("no knot, an unknown target", [], "unknown", ARGUMENT)
    for bad in ({"degree": 0}, {"tolerance": -1.0}, {"tolerance": math.nan}):
        both("a faulty table", fine, "metre", ARGUMENT, units=FAULTY, **bad)
        both("a knot's SHAPE", [*metres(0), (1.0, "metre^(2/4)")], "metre", ARGUMENT, **bad)
        both("the target's UNKNOWN", metres(0, 1), "unknown", ARGUMENT, **bad)
        both("UNITS", [*metres(0), (1.0, "second")], "metre", ARGUMENT, **bad)
        both("a fall", metres(1, 0), "metre", ARGUMENT, **bad)
        both("too many", metres(*[0] * 11), "metre", ARGUMENT, units=ALONE, **bad)


def lengths():
    """An argument of the wrong byte length: ARGUMENT before everything; the table's is TABLE."""
    (table, knots, rule), _ = asked(metres(0, 1), "metre", 0.0, 3, ALONE)
    unknown, _ = asked([*metres(0), (1.0, "unknown")], "metre", 0.0, 3, ALONE)
    for code, rule in ((KNOT_VECTOR, rule), (SPAN_QUOTIENT, span_of(rule, 0.5, 9))):
        cut = rule[:-1]
        for label, says, *arguments in [
            ("knots of one byte less", ARGUMENT, table, knots[:-1], rule),
            ("knots of one byte more", ARGUMENT, table, knots + b"\0", rule),
            ("a knot and a half", ARGUMENT, table, knots[:504], rule),
            ("knots of one byte", ARGUMENT, table, b"\0", rule),
            ("knots of one byte less, a table too", ARGUMENT, table[:-1], knots[:-1], rule),
            ("a rule of no byte", ARGUMENT, table, knots, b""),
            ("a rule of one byte less", ARGUMENT, table, knots, cut),
            ("a rule of one byte more", ARGUMENT, table, knots, rule + b"\0"),
            ("the rule of the other call", ARGUMENT, table, knots, rule[:336] if len(rule) > 336 else rule + bytes(16)),
            ("a rule of one byte less, a table too", ARGUMENT, table[:-1], knots, cut),
            ("a rule of one byte less, an unknown row", ARGUMENT, table, unknown[1], cut),
            ("a table of one byte less", TABLE, table[:-1], knots, rule),
            ("a table of one byte less, an unknown row", TABLE, table[:-1], unknown[1], rule),
            ("a table of no byte", UNKNOWN, b"", knots, rule),
        ]:
            records.append((label, request(code, *arguments), says))


# What makes a conversion to metre be refused.
REFUSED = {
    SHAPE: "metre^(2/4)",
    UNKNOWN: "unknown",
    RANGE: f"metre · hour^{MOST} · hour",
    DENOMINATOR: "metre · hour^(1/65536) · hour^(1/65537)",
    UNITS: "second",
    FRACTION: "metre · hour^(1/2) · second^(-1/2)",
}


def conversions():
    """Reading 24: each knot its complete conversion, knot after knot; the lowest place that is refused."""
    both("a faulty table", metres(0, 1), "metre", TABLE, units=FAULTY)
    both("a faulty table, a faulty list", [(1.0, "metre^(2/4)")], "metre", TABLE, units=FAULTY)
    for number_, unit in REFUSED.items():
        wrong = [(1.5, unit)]
        both("at the first knot", wrong + metres(2, 3), "metre", number_)
        both("in the middle", metres(1) + wrong + metres(2), "metre", number_)
        both("at the last knot", metres(1, 1) + wrong, "metre", number_)
        both("of the only knot", wrong, "metre", number_)
    for (first, a), (second, b) in itertools.permutations(REFUSED.items(), 2):
        ask(f"{first} at a lower place than {second}", [(1.0, a), (1.0, b)], "metre", first)
    root = REFUSED[FRACTION]
    both("FRACTION of knot 0, SHAPE of knot 1", [(1.0, root), (1.0, "metre^(2/4)")], "metre", FRACTION)
    both("UNITS of knot 1, SHAPE of knot 2", [*metres(1), (1.0, "second"), (1.0, "metre^(2/4)")], "metre", UNITS)
    for value_ in (math.nan, math.inf):
        both("of a value that has no order", [(value_, "second"), *metres(1)], "metre", UNITS)


def lists():
    """The knot's list, then the target, then the conversion: at knot 0, before anything of knot 1."""
    for number_, target in ((SHAPE, "metre^(2/4)"), (UNKNOWN, "unknown")):
        both("of the target", metres(0, 1), target, number_)
        both("of the target, of a zero", metres(0), target, number_)
        both("of the target before knot 1's list", [*metres(0), (1.0, "hour^0 · metre^(2/4)")], target, number_)
        both("knot 0's list before the target's", [(1.0, "unknown"), *metres(1)], target, UNKNOWN)
        both("knot 0's list before the target's", [(1.0, "metre^(2/4)"), *metres(1)], target, SHAPE)
        both("of the target before knot 0's conversion", of(REFUSED[RANGE], 1), target, number_)
        both("of the target before a fall", metres(1, 0), target, number_)
    both("SHAPE of the target before UNKNOWN of knot 1", [*metres(0), (1.0, "unknown")], "metre^(2/4)", SHAPE)
    both("17 factors of the target", metres(1), " · ".join(["metre"] * 17), SHAPE)
    both("17 factors of a knot", of(" · ".join(["metre"] * 17), 1), "metre", SHAPE)
    both("RANGE of the target", metres(1), REFUSED[RANGE], RANGE)
    both("RANGE of the target, of a zero", metres(0), REFUSED[RANGE], RANGE)


def zeros():
    """A zero converts to any unit."""
    ask("a zero second", [(0.0, "second"), *metres(1)], "metre", once(0, 1))
    ask("zeros of any unit", [(-0.0, "hour^(1/2)"), (0.0, "second^-3"), *metres(0)], "metre", [(-0.0, 3)])
    ask("a zero below and above", [*metres(-1), (0.0, "second"), *metres(1)], "metre", once(-1, 0, 1))
    both("a zero second after 1", [*metres(1), (0.0, "second")], "metre", ORDER)
    both("a zero whose merging leaves the range", [(0.0, REFUSED[RANGE]), *metres(1)], "metre", RANGE)
    ask("0, then -0: no fall", metres(0.0, -0.0), "metre", [(0.0, 2)])
    ask("-0, then 0: the first's bits", metres(-0.0, 0.0), "metre", [(-0.0, 2)])
    ask("-0 alone", metres(-1, -0.0, LEAST), "metre", once(-1, -0.0, LEAST))
    span("of zeros of both signs", metres(0.0, -0.0), "metre", 0, 1.0, 0.0)
    span("from -0", metres(-0.0, 2), "metre", 0, 1.0, 0.5)
    span("from -0, at -0", metres(-0.0, 2), "metre", 0, -0.0, 0.0)
    span("from 0, at -0", metres(0.0, 2), "metre", 0, -0.0, -0.0)


def orders():
    """Reading 25: all converted values, before merging."""
    both("a fall within the tolerance", metres(1, 0.5), "metre", ORDER, tolerance=1.0)
    both("a fall within the tolerance, later", metres(0, 1, 0.5), "metre", ORDER, tolerance=1.0)
    last_place = of_bits(bits(1.0) - 1)
    both("a fall by a last place", metres(0, 1, last_place), "metre", ORDER)
    both("a fall by the least there is", metres(LEAST, 0), "metre", ORDER)
    both("a fall to the last knot", metres(0, 1, 2, 3, 2.5), "metre", ORDER)
    both("a fall in a run", metres(0, 0.5, 0.25), "metre", ORDER, tolerance=1.0)
    for wrong, name in ((math.nan, "NaN"), (math.inf, "infinity"), (-math.inf, "infinity below")):
        both(f"{name} at the first knot", metres(wrong, 1, 2), "metre", ORDER)
        both(f"{name} in the middle", metres(0, wrong, 2), "metre", ORDER)
        both(f"{name} at the last knot", metres(0, 1, wrong), "metre", ORDER)
        both(f"{name} alone", metres(wrong), "metre", ORDER, tolerance=LARGEST)
    both("infinity by conversion", [*metres(0), (1e308, "Metric(3) metre")], "metre", ORDER)
    both("NaN by conversion", [*metres(0), (1.0, "Metric(1100) metre · Metric(1100) second^-1 · second")], "metre", ORDER)
    both("a prefix beyond every value", of("Metric(1100) metre", 1), "metre", ORDER)
    both("a fall by rounding", [(152.4, MM), (6.0, "inch")], "metre", ORDER, tolerance=1e-9)
    both("a fall, and too many", metres(1, *[0] * 11), "metre", ORDER, units=ALONE)
    both("too many, and a fall", metres(*[1] * 11, 0), "metre", ORDER, units=ALONE)
    both("a fall at 1, FRACTION at 2", [*metres(1, 0), (1.0, REFUSED[FRACTION])], "metre", FRACTION)


def runs():
    """Reading 26: held against the run's first."""
    three = metres(0, 0.6, 1.2)
    ask("against the first, not the knot before", three, "metre", [(0.0, 2), (1.2, 1)], tolerance=1.0)
    ask("the next run from its own first", metres(0, 0.6, 1.2, 1.8, 2.4), "metre", [(0.0, 2), (1.2, 2), (2.4, 1)], 1.0)
    ask("a tolerance that is met exactly", metres(0, 1, 2), "metre", [(0.0, 2), (2.0, 1)], tolerance=1.0)
    ask("a tolerance that is missed by a last place", metres(0, 1, 2), "metre", once(0, 1, 2), of_bits(bits(1.0) - 1))
    ask("a tolerance that is over by one", metres(0, 1, 2), "metre", [(0.0, 2), (2.0, 1)], of_bits(bits(1.0) + 1))
    ask("equal knots", metres(1, 1, 1, 2, 2, 3), "metre", [(1.0, 3), (2.0, 2), (3.0, 1)])
    near = [1.0, of_bits(bits(1.0) + 1), of_bits(bits(1.0) + 2)]
    ask("a last place apart", metres(*near), "metre", once(*near))
    ask("a last place apart, tolerance one", metres(*near), "metre", [(1.0, 2), (near[2], 1)], tolerance=2.0**-52)
    ask("the subtraction rounds", metres(-1e-17, 1), "metre", [(-1e-17, 2)], tolerance=1.0)
    ask("the least numbers", metres(0, LEAST, 2 * LEAST), "metre", once(0, LEAST, 2 * LEAST))
    ask("the least tolerance", metres(0, LEAST, 2 * LEAST), "metre", [(0.0, 2), (2 * LEAST, 1)], tolerance=LEAST)
    ask("a difference that overflows", metres(-1e308, 1e308), "metre", once(-1e308, 1e308), tolerance=LARGEST)
    ask("below zero", metres(-3, -2.5, -1, 0), "metre", [(-3.0, 2), (-1.0, 2)], tolerance=1.0)
    ask("a tolerance in the target's unit", of("foot", 0, 1, 3), "inch", [(0.0, 2), (36.0, 1)], tolerance=12.0)
    ask("the same in feet", of("foot", 0, 1, 3), "foot", once(0, 1, 3), tolerance=0.9)
    ask("0, 0.3, .. 1.5", metres(0, 0.3, 0.6, 0.9, 1.2, 1.5), "metre", tolerance=0.7)


def units():
    """Knots of several units, by order 3's rule."""
    six = [(6.0, "inch"), (152.4, MM), (0.5, "foot")]
    ask("one length in three units", [six[0], six[2], six[1]], "metre", [(0.15239999999999998, 2), (0.1524, 1)])
    ask("the same, a last place merged", [six[0], six[1]], "metre", [(0.15239999999999998, 2)], tolerance=2.0**-55)
    mixed = [*of(MM, 0, 63.5), (2.5, "inch"), (127.0, MM), (6.0, "inch"), (0.75, "foot"), (1.0, "metre")]
    for target in ("metre", MM, "inch", "foot"):
        ask("as suppliers send them", mixed, target, tolerance=1e-9)
    turned = [(12.0, "degree"), (math.pi / 15.0, "radian")]
    both("an angle that falls by rounding", turned, "radian", ORDER, units=ANGLES)
    ask("an angle in two units", turned[::-1], "radian", [(math.pi / 15.0, 2)], tolerance=2.0**-54, units=ANGLES)
    ask("a right angle", [(90.0, "degree"), (math.pi / 2.0, "radian")], "radian", [(math.pi / 2.0, 2)], units=ANGLES)
    ask("angles to the scalar", of("degree", 0, 90, 180), "", once(0, math.pi / 2.0, math.pi), units=ANGLES)
    speed = [(1000.0, "metre · minute^-1"), (1.0, "Metric(3) metre · minute^-1")]
    ask("minutes that nobody converts don't round", speed, "metre · minute^-1", [(1000.0, 2)], units=SPEEDS)
    root = [(1000.0, "metre · hour^(1/2)"), (1.0, "Metric(3) metre · hour^(1/2)")]
    ask("a root that cancels", root, "metre · hour^(1/2)", [(1000.0, 2)], units=SPEEDS)
    root += [(3000.0, "metre · hour^(1/2)")]
    span("of roots that cancel", root, "metre · hour^(1/2)", 1, 2000.0, 0.5, units=SPEEDS)
    ask("powers that cancel", [(1.0, f"metre · hour^{MOST} · hour^-{MOST}"), *metres(2)], "metre", once(1, 2))
    ask("the target spelled otherwise", metres(1, 2), "metre^2 · hour · metre^-1 · hour^-1", once(1, 2))


def multiples():
    """MULTIPLE above degree + 1, of any run."""
    for degree in (1, 2, 3):
        full, over = [0] * (degree + 1), [0] * (degree + 2)
        ask("degree + 1", metres(*full, 1), "metre", [(0.0, degree + 1), (1.0, 1)], degree=degree, units=ALONE)
        both("degree + 2", metres(*over), "metre", MULTIPLE, degree=degree, units=ALONE)
        both("degree + 2 in the last run", metres(-2, -1, *over), "metre", MULTIPLE, degree=degree, units=ALONE)
    ask("degree 9, 10 knots", metres(*[5] * 10), "metre", [(5.0, 10)], degree=9, units=ALONE)
    both("degree 9, 11 knots", metres(*[5] * 11), "metre", MULTIPLE, degree=9, units=ALONE)
    both("by merging alone", metres(0, 0.25, 0.5, 1), "metre", MULTIPLE, tolerance=1.0, degree=2)
    ask("one that begins the next run", metres(0, 0.25, 0.5, 1.25), "metre", [(0.0, 3), (1.25, 1)], 1.0, 2)
    both("in the middle run", metres(0, 1, 1, 1, 2), "metre", MULTIPLE, degree=1)
    both("two runs", metres(0, 0, 0, 1, 1, 1), "metre", MULTIPLE, degree=1)
    clamped = metres(0, 0, 0, 0, 1, 2, 2, 3, 3, 3, 3)
    ask("clamped", clamped, "metre", [(0.0, 4), (1.0, 1), (2.0, 2), (3.0, 4)], units=ALONE)
    for place in range(len(clamped) - 1):
        span("clamped", clamped, "metre", place, 1.5, units=ALONE)


def places():
    """Reading 27: MULTIPLE first, then the span's ARGUMENT; spans are 0 to count - 2."""
    two, five = metres(0, 1), metres(0, 1, 2, 4, 8)
    for place in range(4):
        for x in (1.0, 3.0, -2.0, 8.0):
            span("of every place", five, "metre", place, x)
    for place in (4, 5, 6, 511, 512, 2**31, 2**32 - 1):
        span("no span", five, "metre", place, 1.0, ARGUMENT)
    span("the only one", two, "metre", 0, 0.25, 0.25)
    span("past the only one", two, "metre", 1, 0.25, ARGUMENT)
    for place in (0, 1, 2**32 - 1):
        span("one knot has none", metres(7), "metre", place, 7.0, ARGUMENT)
    for place in (0, 9):
        span("MULTIPLE before the place", metres(0, 0, 0), "metre", place, 0.0, MULTIPLE, degree=1)
        span("ORDER before the place", metres(1, 0), "metre", place, 0.0, ORDER)
        span("UNITS before the place", of("second", 1), "metre", place, 0.0, UNITS)
    span("past a merged span", metres(1, 1), "metre", 1, 1.0, ARGUMENT)


def quotients():
    """Reading 28: +0 for a merged span, else three rounded operations from the runs' first values."""
    wild = (math.nan, math.inf, -math.inf, 0.0, -0.0, 1.0, LARGEST)
    for x in wild:
        span("merged", metres(1, 1, 3), "metre", 0, x, 0.0)
        span("merged by the tolerance", metres(1, 1.5, 3), "metre", 0, x, 0.0, tolerance=0.5)
        span("apart", metres(1, 1, 3), "metre", 1, x)
    span("NaN", metres(0, 1), "metre", 0, math.nan, math.nan)
    three = metres(0, 0.6, 1.2)
    span("ends at their runs' first values", three, "metre", 1, 0.6, 0.5, tolerance=1.0)
    span("at the left knot of a run", three, "metre", 1, 0.0, 0.0, tolerance=1.0)
    span("at the right end", three, "metre", 1, 1.2, 1.0, tolerance=1.0)
    span("the last knot of a run", metres(0, 3, 3.5, 6), "metre", 2, 4.5, 0.5, tolerance=1.0)
    ends = metres(-1e308, 1e308)
    span("an infinite divisor", ends, "metre", 0, 0.0, 0.0)
    span("an infinite divisor, at the right end", ends, "metre", 0, 1e308, math.nan)
    span("an infinite divisor, at the left end", ends, "metre", 0, -1e308, 0.0)
    span("an infinite divisor, below", ends, "metre", 0, -1.5e308, -0.0)
    span("a dividend that overflows", metres(-1e308, 0), "metre", 0, 1e308, math.inf)
    span("the least divisor", metres(0, LEAST), "metre", 0, LEAST, 1.0)
    span("the least divisor, far off", metres(0, LEAST), "metre", 0, 1.0, math.inf)
    for x in (0.1, 0.3, 0.7, of_bits(bits(0.3) + 1)):
        span("three rounded operations", metres(0.1, 0.4, 0.7), "metre", 0, x)
        span("three rounded operations", of("inch", 0.1, 0.4, 0.7), "metre", 1, x)
    span("x is in the target's unit", of("hour", 0, 1), "second", 0, 900.0, 0.25)


def many():
    """511 and 512 knots, 513 are too many; the reading's fall at 1 with UNITS at 511."""
    ramp = [x // 2 for x in range(512)]
    pairs = [(float(x), 2) for x in range(256)]
    ask("512 knots", metres(*ramp), "metre", pairs, units=ALONE)
    span("the last of 511 knots", metres(*range(511)), "metre", 509, 509.25, 0.25, units=ALONE)
    ask("513 knots", metres(*range(513)), "metre", ARGUMENT, units=ALONE)
    late = [*metres(1, 0, *range(2, 511)), (511.0, "metre^2")]
    ask("a fall at 1, UNITS at 511", late, "metre", UNITS, units=ALONE)


def told(answer):
    if isinstance(answer, list):
        return ", ".join(f"{n} times {x!r}" for x, n in answer)
    return f"refused {answer}" if isinstance(answer, int) else repr(answer)


def main(word="", folder=None):
    for cases in (counts, before_all, lengths, conversions, lists, zeros, orders, runs, units, multiples, places):
        cases()
    quotients()
    many()
    if word == "write":
        run = b"".join(asked_ + written(answer) for _, asked_, answer in records)
        pathlib.Path(folder, "edges-knots.bin").write_bytes(run)
    if word == "longest":
        sys.stdout.buffer.write(max((asked_ for _, asked_, _ in records), key=len))
    for at, (label, asked_, answer) in enumerate(records if word == "list" else []):
        print(f"knots {at}: call {asked_[0]}: {label}: {told(answer)}")


if __name__ == "__main__":
    main(*sys.argv[1:])
