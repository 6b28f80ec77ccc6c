#!/usr/bin/env python3
"""Conversions in which factors cancel on both sides (02, order 3), with answers worked out here from 02's sentences.

  merged.py write FOLDER   edges-merged.bin
  merged.py list           every record in words, with its answer

Rows and scales are those of edges.py, canonical forms and both conversions those of halves.py; a unit is written as in
named.py. A record has the form of the stored list. What 02's readings say of a case, and of 01's conversion beside it,
stands with it, and the program ends with an error if its own account says otherwise.
"""
import math
import pathlib
import struct
import sys

from edges import DENOMINATOR, FRACTION, MOST, RANGE, SHAPE, TABLE, UNKNOWN, Refused, bits, exponent, given, refused
from edges import request, shaped, table_bytes, told, unit_of
from halves import ADD, COMPARE, EQUAL, POWER, SIMPLIFY, UNITS, Table, of_quantities
from named import factors, list_of, ranked
from pinned import BENCH, BENCH_ORDER, SHOP

CONVERT_MERGED = 27

# Tenths of a metre, of rising rank.
TENTHS = {"metre": None, "one": (0.1, "metre"), "three": (0.3, "metre"), "seven": (0.7, "metre")}
TENTHS_ORDER = list(TENTHS)

# Three base units and what leaves the range over the first.
ENDS = dict.fromkeys("abc")
ENDS |= {"square": (1.0, "a^2"), "root": (1.0, "a^(1/2)"), "fifth": (1.0, "a^(1/5)"), "high": (1.0, "a^65536")}
ENDS |= {"one": (1.0, "a"), "three": (1.0, "a"), "two": (1.0, "a")}
ENDS_ORDER = ["a", "b", "c", "square", "root", "fifth", "high", "one", "two", "three"]

# Scales that no value has: infinite, zero, NaN.
WILD = {"metre": None, "second": None, "endless": (1e308, "Metric(300) second")}
WILD |= {"nothing": (1e-308, "Metric(-300) second"), "neither": (1.0, "Metric(1100) second · Metric(-1100) second")}

BY_ENDS = {"units": ENDS, "order": ENDS_ORDER}
BY_TENTHS = {"units": TENTHS, "order": TENTHS_ORDER}
IN_SHOP = {"units": SHOP, "order": None}
IN_WILD = {"units": WILD, "order": None}


# ---- records: a label, a request, its answer

records = []


def outcome(work):
    """A value, or the number of a refusal."""
    try:
        return work()
    except Refused as refusal:
        return refusal.args[0]


def checked(t, unit):
    """SHAPE before UNKNOWN."""
    if len(unit) > 16:
        raise Refused(SHAPE)
    for _, kind, n, num, den in unit:
        shaped(kind, n)
        exponent(num, den)
    if any(row >= len(t.rows) for row, *_ in unit):
        raise Refused(UNKNOWN)


def converted(table, x, own, target, merged):
    """The table, the own list, the target list, then the conversion."""
    t = Table(table)
    checked(t, own)
    checked(t, target)
    return t.converted(x, own, target, merged)


def same(answer, says):
    """A float is a value, a whole number a refusal; None says nothing."""
    if says is None or type(answer) is not type(says):
        return says is None
    return bits(answer) == bits(says) if isinstance(says, float) else answer == says


def ask(label, own, target, says=None, old=None, x=1.0, mark=1, units=BENCH, order=BENCH_ORDER):
    names, table = list(units), ranked(units, order)
    lists = factors(own, names), factors(target, names)
    by_01 = outcome(lambda: converted(table, x, *lists, False))
    answer = outcome(lambda: converted(table, x, *lists, True))
    if not (same(by_01, old) and same(answer, says)):
        sys.exit(f"merged: {label}: {answer} and by 01 {by_01}, not {says} and {old}")
    label += f": {x:g} {own or 'scalar'} to {target or 'scalar'}"
    asked = [table_bytes(table), struct.pack("<QI", bits(x), mark) + list_of(own, names), list_of(target, names)]
    if isinstance(answer, float):
        out = given(struct.pack("<QI", bits(answer), 1) + unit_of(*lists[1]))
    else:
        out = refused(answer)
    records.append((label, request(CONVERT_MERGED, *asked), out))


# ---- cases


def whole():
    """A factor that cancels wholly isn't there, and isn't read."""
    minutes = "Metric(3) metre · minute^-1", "metre · minute^-1"
    ask("minutes that nobody converts don't round", *minutes, 1000.0, 1000.0000000000001)
    hours, other = ("Metric(3) metre · hour^-1", "metre · hour^-1"), BENCH | {"hour": (59.9, "minute")}
    ask("hours", *hours, 300.0, x=0.3)
    ask("hours of another scale", *hours, 300.0, x=0.3, units=other)
    ask("back", "metre · hour^-1", "Metric(3) metre · hour^-1", 0.3, x=300.0)
    ask("a root that isn't there any more", "Metric(3) metre · hour^(1/2)", "metre · hour^(1/2)", 1000.0, FRACTION)
    ask("a root below the line", "Metric(3) metre · hour^(-1/2)", "metre · hour^(-1/2)", 1000.0, FRACTION)
    ask("an odd root", "hour · byte^(7/12)", "byte^(7/12) · minute", 60.0, FRACTION)
    ask("a root under a prefix", "hour · Metric(3) metre^(1/3)", "minute · Metric(3) metre^(1/3)", 60.0, FRACTION)
    two = "hour^(1/2) · newton^(1/3)"
    ask("two roots", f"Metric(3) metre · {two}", f"{two} · metre", 1000.0, FRACTION)
    ask("the whole own list", "hour · minute", "hour · minute · byte · bit^-1", 0.25, x=2.0)
    ask("the whole target", "hour · minute · byte · bit^-1", "hour · minute", 16.0, x=2.0)
    ask("to the scalar", "hour · minute^-1", "", 120.0, 120.0, x=2.0)
    ask("from the scalar", "", "hour · minute^-1", 2.0, 2.0, x=120.0)
    many = " · ".join(f"Metric({n}) hour" for n in range(-7, 8))
    ask("fifteen factors beside one", f"{many} · Metric(3) metre", f"metre · {many}", 1000.0)
    for unit in ("endless", "nothing", "neither"):
        pair = f"Metric(3) metre · {unit}", f"metre · {unit}"
        ask("a scale of no value", *pair, 1000.0, math.nan, **IN_WILD)
    pair = "Metric(3) metre · endless^(1/2)", "metre · endless^(1/2)"
    ask("a root of an infinite scale", *pair, 1000.0, FRACTION, **IN_WILD)


def part():
    """What is left of a factor that cancels in part is read."""
    ask("more in the own list", "hour^3", "hour^2 · minute", 120.0, x=2.0)
    ask("more in the target", "hour^2 · minute", "hour^3", 2.0, x=120.0)
    ask("below zero, more in the own list", "hour^-3", "hour^-2 · minute^-1", x=120.0)
    ask("below zero, more in the target", "hour^-2 · minute^-1", "hour^-3", x=2.0)
    ask("a whole one left of a root", "hour^(3/2)", "hour^(1/2) · minute", 60.0, FRACTION)
    ask("a whole one left of a root in the target", "hour^(1/2) · minute", "hour^(3/2)", 2.0, FRACTION, x=120.0)
    ask("a root left", "hour^(1/2)", "hour^(1/3) · second^(1/6)", FRACTION, FRACTION)
    ask("a root left in the target", "hour^(1/3) · second^(1/6)", "hour^(1/2)", FRACTION, FRACTION)
    ask("a root left of a scale of exactly 1", "metre^(1/2)", "metre^(1/3) · Binary(0) metre^(1/6)", 5.0, 5.0, x=5.0)
    ask("one in part, one wholly", "hour^2 · byte^(1/2)", "hour · byte^(1/2) · second", 3600.0, FRACTION)
    ask("larger powers", "hour^40 · Metric(3) metre", "hour^39 · minute · metre", 60000.0)


def signs():
    """Reading 21: under opposite signs nothing is common."""
    ask("opposite signs", "minute^-1", "minute · second^-2", 2.0, 2.0, x=7200.0)
    ask("opposite signs, the target below zero", "minute", "minute^-1 · second^2", 7200.0, 7200.0, x=2.0)
    ask("opposite signs of a root", "minute^(-1/2)", "minute^(1/2) · second^-1", FRACTION, FRACTION)
    ask("opposite signs once merged", "minute · minute^-2", "minute · second^-2", 2.0, x=7200.0)
    ask("one sign once merged", "minute^-1 · minute^2", "minute^-1 · minute^2 · byte · bit^-1", 0.25, x=2.0)
    ask("one sign, and opposite ones beside", "hour · minute^-1", "hour · minute · second^-2", x=7200.0)


def spelled():
    """Own lists and targets that aren't canonical: reading 17, merged means canonical, its order too."""
    down, up, metres = "seven · three · one", "one · three · seven", "metre^3"
    ask("the own scale in canonical order", down, metres, 0.020999999999999998, 0.021, **BY_TENTHS)
    alike = 0.020999999999999998
    ask("the own list canonical, nothing in common", up, metres, alike, alike, **BY_TENTHS)
    ask("the target in canonical order", metres, down, x=0.021, **BY_TENTHS)
    ask("a power for a factor again", "one · one · one", metres, **BY_TENTHS)
    ask("factors again, far apart", "three · one · three · seven · three", "metre^5", **BY_TENTHS)
    ask("a factor again in the target", "one^3", "one · metre · one", 0.1, **BY_TENTHS)
    ask("a sum of exponents is common", "one · seven · one^2", "one^3 · three", **BY_TENTHS)
    ask("a factor and its inverse are gone", "hour^(1/2) · Metric(3) metre · hour^(-1/2)", "metre", 1000.0, FRACTION)
    ask("nor in the target", "Metric(3) metre", "hour^(1/2) · metre · hour^(-1/2)", 1000.0, 1000.0)
    ask("roots that sum up to one", "hour^(1/2) · hour^(1/2)", "minute", 60.0, FRACTION)
    ask("a zero isn't there", "hour · byte^0", "minute", 60.0, 60.0)
    ask("a zero isn't common", "byte^0 · hour", "byte^0 · minute · byte", UNITS, UNITS)
    ask("prefixes tell factors apart", "Metric(3) metre^(1/2)", "metre^(1/2)", FRACTION, FRACTION)
    ask("no prefix in two ways", "hour · Binary(0) metre^2", "minute · metre^2", 60.0, 60.0)
    ask("by key, then rank, then prefix", "Metric(3) hour · Binary(0) minute · second · Metric(-3) hour", "second^4")
    ask("scales that round", "foot^2 · inch^-3", "inch^-1", **IN_SHOP)
    ask("scales that round, in another order", "inch^-3 · foot^2", "inch^-1", **IN_SHOP)
    ask("pounds a square foot", "poundforce · foot^-2", "poundforce · inch^-2", x=3.0, **IN_SHOP)
    ask("pounds a cubic inch", "pound · inch^-3", "Metric(3) gram · inch^-3", x=0.3, **IN_SHOP)
    sixteen = " · ".join(["foot", "inch"] * 8), " · ".join(["inch", "foot^2", "metre^-1", "metre^2"] * 4)
    ask("sixteen factors to one", sixteen[0], "inch^16", x=0.3, **IN_SHOP)
    ask("sixteen factors to sixteen", *sixteen, x=0.3, **IN_SHOP)


def shortcuts():
    """A zero, or equal lists: the value as it is. NaN counts as nonzero."""
    for x in (0.0, -0.0):
        ask("a zero, to any unit", "hour^(1/2)", "metre^(1/3)", x, x, x=x)
    ask("a zero, of scales of no value", "endless", "nothing^(1/2)", 0.0, 0.0, x=0.0, **IN_WILD)
    ask("a zero whose base exponents leave the range", f"square^{MOST}", "b", 0.0, 0.0, x=0.0, **BY_ENDS)
    ask("a zero that leaves it over the common list", "b^(1/65536)", "b^(1/65537)", 0.0, 0.0, x=0.0, **BY_ENDS)
    ask("a zero whose merging leaves the range", f"a^{MOST} · a", "b", RANGE, RANGE, x=0.0, **BY_ENDS)
    ask("a zero whose target's does", "b", "a^(1/65536) · a^(1/65537)", DENOMINATOR, DENOMINATOR, x=0.0, **BY_ENDS)
    for x in (0.1, math.nan, math.inf):
        ask("equal lists", "hour^(1/2) · Metric(3) metre", "Metric(3) metre · hour · hour^(-1/2)", x, x, x=x)
    ask("equal lists of no value", "endless · nothing", "nothing · endless", 7.0, 7.0, x=7.0, **IN_WILD)
    ask("two spellings of the scalar", "hour · hour^-1", "metre^0", 7.0, 7.0, x=7.0)
    far = f"square^{MOST}"
    ask("equal lists whose base exponents leave the range", far, far, 7.0, 7.0, x=7.0, **BY_ENDS)


def values():
    for x in (math.nan, -math.inf, 1e308, 5e-324):
        ask("a value", "Metric(3) metre · hour^(1/2)", "hour^(1/2) · metre", x=x)
    ask("NaN, unlike units", "hour", "metre", UNITS, UNITS, x=math.nan)
    ask("an infinite own scale", "Metric(1100) metre", "metre", math.inf, math.inf)
    ask("a target of scale zero", "metre", "Metric(-1100) metre", math.inf, math.inf)
    ask("infinity over infinity", "Metric(1100) metre", "Metric(1099) metre", math.nan, math.nan)
    ask("no mark: it is set afresh", "hour", "minute", 360.0, x=6.0, mark=0)
    ask("any mark: it is set afresh", "hour", "minute", 360.0, x=6.0, mark=7)
    ask("the target as it is spelled", "minute", "second^2 · second^-1 · byte^0", 360.0, x=6.0)


def arguments():
    """TABLE, then SHAPE and UNKNOWN of the own list, then of the target; then the conversion."""
    twice = BENCH | {"second": (0.0, "metre")}
    ask("a faulty table, and a faulty list", "metre^(2/4)", "unknown", TABLE, units=twice)
    root = BENCH | {"byte": (8.0, "Metric(3) bit^(1/2)")}
    ask("a row's FRACTION before a list", "metre^(2/4)", "unknown", FRACTION, units=root)
    seventeen = " · ".join(["hour"] * 17)
    ask("17 own factors", seventeen, "unknown", SHAPE)
    ask("17 factors of the target", "hour", seventeen, SHAPE)
    ask("an exponent 2/4", "hour^(2/4)", "hour", SHAPE)
    ask("a prefix beyond 1100", "hour", "Metric(1101) hour", SHAPE)
    ask("SHAPE before UNKNOWN", "unknown · hour^(2/4)", "hour", SHAPE)
    ask("the own list's UNKNOWN before the target's SHAPE", "unknown", seventeen, UNKNOWN)
    ask("UNKNOWN of the target", "hour", "unknown", UNKNOWN)
    ask("UNKNOWN of the target, of a zero", "hour", "unknown", UNKNOWN, x=0.0)
    ask("UNKNOWN of the target before RANGE", f"hour^{MOST} · hour", "unknown", UNKNOWN)


def lengths():
    """An argument of a wrong byte length."""
    table, names = table_bytes(ranked(BENCH, BENCH_ORDER)), list(BENCH)
    own, target = struct.pack("<QI", bits(1.0), 1) + list_of("hour", names), list_of("minute", names)
    for label, says, *given_bytes in [
        ("a table of one byte less", TABLE, table[:-1], own[:-1], target),
        ("a quantity of one byte less", SHAPE, table, own[:-1], list_of("unknown", names)),
        ("a quantity of one byte more", SHAPE, table, own + b"\0", target),
        ("a list of one byte less", SHAPE, table, own, target[:-1]),
        ("a quantity for the list", SHAPE, table, own, own),
        ("an unknown row before a list of no bytes", UNKNOWN, table, own[:12] + list_of("unknown", names), b""),
    ]:
        records.append((label, request(CONVERT_MERGED, *given_bytes), refused(says)))


def ranges():
    """Reading 18, and near cases: only one of the two conversions leaves the range."""
    cancel, seconds = f"minute^{MOST} · hour · hour^-1", f"second^{MOST}"
    ask("powers that cancel", cancel, seconds, math.inf, RANGE)
    roots = "a^(1/65536) · one^(1/65537) · one^(-1/65537)"
    ask("odd roots that cancel", roots, "two^(1/65536)", 5.0, DENOMINATOR, x=5.0, **BY_ENDS)
    ask("and one that is common", f"{roots} · b", "Binary(0) b · a^(1/65536)", 5.0, DENOMINATOR, x=5.0, **BY_ENDS)
    ask("odd roots merged", "high^(1/65536)", "high^(1/65537) · a^(1/65537)", DENOMINATOR, 3.0, x=3.0, **BY_ENDS)
    ask("powers merged", f"fifth^({MOST}/2)", "fifth^(8/3) · a^(1288490185/6)", RANGE, 3.0, x=3.0, **BY_ENDS)
    far, back = f"one^{MOST}", f"a^{MOST} · three^-1 · two"
    ask("powers in canonical order", back, far, RANGE, 3.0, x=3.0, **BY_ENDS)
    ask("powers given in that order", f"a^{MOST} · two^-1 · three", far, 3.0, 3.0, x=3.0, **BY_ENDS)
    ask("powers in the given order alone", f"a^{MOST} · three · two^-1", far, 3.0, RANGE, x=3.0, **BY_ENDS)
    roots, odd = "a^(1/65536) · three^(-1/65536) · two^(1/65537)", "one^(1/65537)"
    ask("odd roots in canonical order", roots, odd, DENOMINATOR, 3.0, x=3.0, **BY_ENDS)
    turned = "a^(1/65536) · two^(1/65537) · three^(-1/65536)"
    ask("odd roots in either order", turned, odd, DENOMINATOR, DENOMINATOR, x=3.0, **BY_ENDS)
    # With other units and without a half, UNITS is the same (reading 19); with one it is not.
    ask("other units", cancel, f"metre^{MOST}", UNITS, RANGE)
    ask("other units", back, f"b^{MOST}", RANGE, UNITS, **BY_ENDS)
    ask("a root beside powers", f"minute^{MOST} · hour^(1/2) · hour^(-1/2)", seconds, math.inf, RANGE)
    ask("UNITS before FRACTION", "hour^(1/2)", "metre^(1/2)", UNITS, UNITS)
    ask("UNITS of what is left", "hour^(1/2) · metre", "hour^(1/2) · metre^2", UNITS, UNITS)
    ask("UNITS, the own list cancels wholly", "hour^(1/2)", "hour^(1/2) · metre", UNITS, UNITS)
    ask("own FRACTION", "hour^(1/2)", "second^(1/2)", FRACTION, FRACTION)
    ask("the target's FRACTION", "second^(1/2)", "hour^(1/2)", FRACTION, FRACTION)


def steps():
    """Reading 16: each step refuses by one half before the next two do by the other."""
    powers, roots = f"a^{MOST} · a", "a^(1/65536) · a^(1/65537)"
    far, near, odd, even = f"({MOST}/2)", "(1/3)", "(1/65536)", "(1/65537)"
    # What makes a step refuse by RANGE and by DENOMINATOR: own factors, factors of the target.
    all_of_them = {
        "own canonical form": ((powers, ""), (roots, "")),
        "the target's canonical form": (("", powers), ("", roots)),
        "own over the common list": ((f"b^{far}", f"b^{near}"), (f"b^{odd}", f"b^{even}")),
        "own base exponents": ((f"square^{MOST}", ""), (f"root^(1/{MOST})", "")),
        "the target over the common list": ((f"c^{near}", f"c^{far}"), (f"c^{even}", f"c^{odd}")),
        "the target's base exponents": (("", f"square^{MOST}"), ("", f"root^(1/{MOST})")),
    }

    def together(*lists):
        return [" · ".join(part for part in side if part) for side in zip(*lists)]

    for name, (powers, roots) in all_of_them.items():
        ask(name, *powers, RANGE, **BY_ENDS)
        ask(name, *roots, DENOMINATOR, **BY_ENDS)
    in_order = list(all_of_them.items())
    for (name, first), (later, second) in [*zip(in_order, in_order[1:]), *zip(in_order, in_order[2:])]:
        ask(f"{name} before {later}", *together(first[0], second[1]), RANGE, **BY_ENDS)
        ask(f"{name} before {later}", *together(first[1], second[0]), DENOMINATOR, **BY_ENDS)


def others():
    """Reading 22: sums, comparison, powers and simplification keep 01's conversion."""
    table, names = ranked(BENCH, BENCH_ORDER), list(BENCH)

    def other(label, code, says, *quantities):
        quantities = [(x, factors(unit, names)) for x, unit in quantities]
        try:
            out = given(of_quantities(Table(table), code, *quantities))
        except Refused as refusal:
            out = refused(refusal.args[0])
        if says is not None and out != refused(says):
            sys.exit(f"merged: {label}: {told(out)}, not {says}")
        asked = [struct.pack("<QI", bits(x), 1) + unit_of(*unit) for x, unit in quantities]
        records.append((label, request(code, table_bytes(table), *asked), out))

    long, short = "Metric(3) metre · hour^(1/2)", "metre · hour^(1/2)"
    for code, name in ((ADD, "a sum"), (EQUAL, "equality"), (COMPARE, "comparison")):
        other(f"{name} of roots", code, FRACTION, (1000.0, short), (1.0, long))
    speeds = (1000.0, "metre · minute^-1"), (1.0, "Metric(3) metre · minute^-1")
    other("equality with a rounding from minutes", EQUAL, None, *speeds)
    other("comparison with a rounding from minutes", COMPARE, None, *speeds)
    other("a sum with a rounding from minutes", ADD, None, *speeds)
    scalar = "hour^(1/2) · hour^(-1/2) · hour · minute^-1"
    other("a power's exponent", POWER, FRACTION, (2.0, "metre"), (1.0, scalar))
    other("simplification", SIMPLIFY, FRACTION, (2.0, scalar))


def main(word="", folder=None):
    for cases in (whole, part, signs, spelled, shortcuts, values, arguments, lengths, ranges, steps, others):
        cases()
    if word == "write":
        pathlib.Path(folder, "edges-merged.bin").write_bytes(b"".join(asked + answer for _, asked, answer in records))
    for at, (label, asked, out) in enumerate(records if word == "list" else []):
        print(f"merged {at}: call {asked[0]}: {label}: {told(out)}")


if __name__ == "__main__":
    main(*sys.argv[1:])
