#!/usr/bin/env python3
"""Named cases of simplification as requests, most of them over one table of units in use.

  named.py requests                   writes the stream
  named.py store FILE RUST READING    the requests with their answers: the Rust's inside its domain, else 01's reading's
  named.py table RUST READING         every case with its answers, which are taken from what `decode` printed

A unit is written as `decode` prints it, with names in place of rows; "unknown" is a row that isn't there.
"""
import itertools
import math
import pathlib
import re
import struct
import sys

from edges import BINARY, METRIC, MOST, bits, f, of_bits, places, request, table_bytes, words

FACTOR = re.compile(r"(?:(Metric|Binary)\((-?\d+)\) )?(\w+)(?:\^\(?(-?\d+)(?:/(\d+)\))?)?")
OUTSIDE = range(0xFFFFFFFA, 0xFFFFFFFF)
# What stands past the end of a list: it breaks every rule and is never read.
PAST = (2**32 - 1, 2, 5000, 2, 4)

# Each unit's factor and definition, none for a base unit. Rank order is the names' byte order.
UNITS = {
    "bit": None,
    "gram": None,
    "metre": None,
    "second": None,
    "percent": (0.01, ""),
    "radian": (1.0, "metre · metre^-1"),
    "degree": (of_bits(0x3F91DF46A2529D39), "radian"),  # pi / 180
    "hertz": (1.0, "second^-1"),
    "minute": (60.0, "second"),
    "hour": (60.0, "minute"),
    "century": (876600.0, "hour"),
    "are": (100.0, "metre^2"),
    "litre": (1.0, "Metric(-1) metre^3"),
    "newton": (1.0, "Metric(3) gram · metre · second^-2"),
    "pascal": (1.0, "newton · metre^-2"),
    "joule": (1.0, "newton · metre"),
    "watt": (1.0, "joule · second^-1"),
    "watthour": (1.0, "watt · hour"),
    # The last scale that is nearer to 1 than 1e-9, and the next one.
    "nearspeed": (1.0 + 4503599 * 2.0**-52, "metre · second^-1"),
    "farspeed": (1.0 + 4503600 * 2.0**-52, "metre · second^-1"),
}

# Roots of a base unit, and one of two base units.
ROOTED = dict.fromkeys(["bit", "metre", "second"])
ROOTED |= {"root": (1.0, "metre^(1/2)"), "cube": (1.0, "metre^(1/3)"), "mix": (1.0, "metre · second^(1/3)")}

# Sixteen units of sixteen keys.
KEYS = dict.fromkeys(["ampere", "bit", "candela", "gram", "kelvin", "metre", "mole", "second"]) | {
    name: UNITS[name] for name in ("newton", "pascal", "joule", "watt")
}
KEYS |= {"coulomb": (1.0, "ampere · second"), "lux": (1.0, "candela · metre^-2")}
KEYS |= {"volt": (1.0, "watt · ampere^-1"), "ohm": (1.0, "volt · ampere^-1")}


# ---- bytes


def factor(text, names):
    kind, n, name, num, den = FACTOR.fullmatch(text).groups()
    row = len(names) if name == "unknown" else names.index(name)
    return f(row, int(n or 0), int(num or 1), int(den or 1), BINARY if kind == "Binary" else METRIC)


def factors(unit, names):
    return [factor(text, names) for text in unit.split(" · ") if text]


def list_of(unit, names):
    given = factors(unit, names)
    return words(len(given)) + places(16, given, PAST)


def ranked(units, order=None):
    """The order of ranks is that of the names' bytes unless said."""
    names = list(units)
    ranks = [(order or sorted(names)).index(name) for name in names]
    kinds = [(d[0], factors(d[1], names)) if d else (None, []) for d in units.values()]
    return [(rank, *kind) for rank, kind in zip(ranks, kinds)]


def rows_of(units, order=None):
    return table_bytes(ranked(units, order))


# ---- cases: a label, the names of its rows, a request

cases = []


def put(label, units, code, value, mark, unit, *more):
    names = list(units)
    quantity = struct.pack("<QI", bits(value), mark) + list_of(unit, names)
    label += f": {value:g} {unit}".rstrip() + ("" if mark else " unmarked")
    cases.append([label, names, request(code, rows_of(units), quantity, *more)])


def simplify(label, value, unit, mark=1, units=UNITS):
    put(label, units, 21, value, mark, unit)


def simplify_with(label, value, unit, *candidates, ranks=None, mark=1):
    """The ranks of the candidates are 0, 1, .. unless said."""
    names, ranked = list(UNITS), list(zip(ranks or range(99), candidates))
    run = b"".join(struct.pack("<HH", rank, 0) + list_of(c, names) for rank, c in ranked)
    put(label, UNITS, 22, value, mark, unit, run)
    shown = [(c or "the scalar") + (f" of rank {rank}" if ranks else "") for rank, c in ranked]
    runs = [(c, len(list(same))) for c, same in itertools.groupby(shown)]
    cases[-1][0] += "; candidates: " + (", ".join(c if n == 1 else f"{n} times {c}" for c, n in runs) or "none")


def examples():
    """Those of quantity.rs, and near ones."""
    simplify("percent and kilogram", 3, "percent · Metric(3) gram")
    simplify("newton metre", 2, "newton · metre")
    simplify_with("newton metre", 2, "newton · metre", "joule")
    simplify("joule a second", 5, "joule · second^-1")
    simplify_with("joule a second", 5, "joule · second^-1", "watt")
    simplify("watt-hour a watt", 2, "watthour · watt^-1")
    simplify_with("candidates of other scales", 2, "watthour · watt^-1", "century", "Metric(1) hour", "second")
    simplify_with("candidates, the last of the same scale", 2, "watthour · watt^-1", "century", "hour")
    simplify("hertz second", 4, "hertz · second")
    simplify("a radian is 1", 2, "radian")
    simplify("half a turn in degrees", 180, "degree")
    simplify("a radian beside a metre", 2, "metre · radian")
    simplify("degrees a second", 90, "degree · second^-1")


def roots():
    """FRACTION, and where it isn't met."""
    root = "newton^(1/2) · bit"
    simplify("a root", 4, root)
    simplify_with("a root, its scale worked out before the candidates", 4, root)
    simplify_with("a root, its scale worked out before the candidates", 4, root, "bit")
    simplify("zero of a root", 0, root)
    simplify_with("a root as the one factor left", 4, "newton^(1/2)", "joule")
    simplify_with("a root of exactly 1", 4, "Metric(-3) newton^(1/2) · bit", "joule")
    simplify("roots that cancel in the canonical form", 4, "newton^(1/2) · newton^(-1/2)")
    simplify("FRACTION in the conversion to scalar", 4, "hour^(1/2) · second^(-1/2)")
    simplify("FRACTION in the conversion to one factor", 4, "hour^(1/2) · second^(1/2)")
    simplify("FRACTION in a group's conversion, its own scale", 4, "bit · hour^(1/2) · second^(1/2)")
    simplify("FRACTION in a group's conversion, its target's scale", 4, "are · litre")


def groups():
    simplify("an empty canonical form", 5, "metre · metre^-1")
    simplify("an empty canonical form, by an exponent 0", 5, "metre^0")
    simplify("no factors", 5, "")
    simplify("base exponents that cancel", 5, "hour · second^-1")
    simplify("base exponents that cancel beside one factor", 5, "minute^2 · hour^-2 · metre")
    simplify("a group that cancels beside two others", 5, "minute^2 · hour^-2 · metre · bit")
    simplify("a group without base units", 5, "percent · bit · metre · degree")
    simplify("a base unit stands for its group", 5, "hour · second · metre")
    simplify("a base unit stands for its group with a smaller exponent", 5, "hour^3 · second^-1 · metre")
    simplify("the greater exponent stands for its group", 5, "hertz · minute^2 · metre")
    simplify("the greater exponent, its base exponent -1", 5, "hertz^3 · minute^2 · metre")
    simplify("two derived units of one exponent, the last", 5, "minute^2 · hour^2 · metre")
    simplify("three derived units of one exponent, the last", 5, "metre · minute · century · hour")
    simplify("one base unit with two prefixes, the last", 5, "Metric(3) metre · Metric(-3) metre · bit")
    simplify("one base unit with no prefix in both ways, the last", 5, "Binary(0) metre · metre · bit")
    simplify("base exponents 2, 3 and 1 in one group", 5, "are · litre · metre · bit")


def multiples():
    simplify("a power of the first factor", 5, "minute · second")
    simplify("a power of the first factor", 5, "second · minute^2")
    simplify("a power of the second, of the first to 3/2", 5, "metre · are")
    simplify("a power of a factor beside others", 5, "newton · metre · joule")
    simplify("a power of the first of two energies", 5, "joule · watthour")
    simplify("agreement with a factor of base exponent -1", 5, "second^-2 · hertz^-1")
    simplify("no multiple is whole, so the group decides", 5, "are · metre^(1/2)")


def ranges():
    over = f"metre^{MOST} · metre"
    simplify("RANGE in the canonical form, for zero too", 0, over)
    simplify("RANGE in the canonical list's base exponents", 5, f"bit · hour^{MOST} · second^-1 · minute")
    simplify("DENOMINATOR in a multiple's quotient", 5, f"metre^(1/{MOST}) · are^(-1/{MOST})")
    simplify("RANGE in a multiple's products", 5, f"gram^{MOST - 1} · newton")
    simplify("DENOMINATOR in a quotient of a group's exponents", 5, f"bit · are^(1/{MOST}) · litre^(-1/{MOST})")
    simplify("DENOMINATOR in the sum of a group's exponents", 5, "bit · are^(1/65536) · litre^(2/196605)")
    watt = "newton · metre · second^-1"
    simplify_with("RANGE in a candidate's base exponents", 5, watt, over, "watt")
    simplify_with("one factor wins before a candidate beyond the range", 5, watt, "watt", over)
    simplify_with("as many factors as now, and beyond the range", 5, "joule · second^-1", over, "watt")
    simplify_with("FRACTION in a candidate's scale", 5, watt, "watt^(1/2) · watt^(1/2)", "watt")
    six = "newton · pascal^-1 · metre^-1 · second^-2 · joule · watt^-1"
    wide = f"metre^{MOST} · Binary(0) metre^-{MOST} · metre · second^-1"
    simplify_with("RANGE in the conversion to one that could not win", 5, six, "metre · second^-1", wide)


def halves():
    """02's order 2: the other half at each place, and neither taken for UNITS."""
    odd = "metre^(1/65536) · metre^(1/65537)"
    simplify("DENOMINATOR in the canonical form, for zero too", 0, odd)
    thirds = "bit · hour^(1/65536) · second^(-1/65536) · minute^(1/65537)"
    simplify("DENOMINATOR in the canonical list's base exponents", 5, thirds)
    simplify("in range, since a group's exponent is multiplied before it is divided", 5, f"bit · are^(1/{MOST})")
    simplify_with("DENOMINATOR in a candidate's base exponents", 5, "newton · metre · second^-1", odd, "watt")
    simplify_with("one factor wins before a candidate of odd roots", 5, "newton · metre · second^-1", "watt", odd)

    def rooted(label, unit):
        simplify(label, 5, unit, units=ROOTED)

    rooted("DENOMINATOR in the conversion to scalar, not UNITS", f"cube^(1/{MOST}) · cube^(-1/{MOST}) · bit")
    rooted("RANGE in a multiple's quotient", "cube^3 · metre^1000000000")
    rooted("DENOMINATOR in a multiple's products", f"mix · metre^(-{MOST - 1}/{MOST})")
    rooted("RANGE in a quotient of a group's exponents", f"bit · cube^3 · root^-{MOST - 1}")
    rooted("RANGE in the sum of a group's exponents", "bit · cube^-3 · root^-1431655764")


def choices():
    four, first, second = "newton · metre · second^-1 · bit", "Metric(3) watt · Metric(-3) bit", "watt · bit"
    simplify_with("two candidates of two factors, the first", 5, four, first, second)
    simplify_with("two candidates of two factors, the first", 5, four, second, first)
    simplify_with("a candidate of fewer factors later", 5, four, "joule · second^-1 · bit", second)
    simplify_with("a candidate of more factors later", 5, four, second, "joule · second^-1 · bit")
    simplify_with("two candidates of one factor, the first", 5, "joule · second^-1", "Binary(0) watt", "watt")
    simplify_with("one factor after two", 5, "newton · metre · second^-1", "joule · hertz", "watt")
    simplify_with("a candidate with as many factors as now", 5, "joule · second^-1", "hertz · joule")
    simplify_with("a candidate without factors", 5, "joule · second^-1", "", "watt")


def base_units():
    simplify("newton a pascal", 5, "newton · pascal^-1")
    simplify_with("a single base unit, before a candidate", 5, "newton · pascal^-1", "Binary(0) metre^2")
    simplify_with("a single base unit, without candidates", 5, "joule · watt^-1")
    quarter = "Metric(-3) newton^(1/4) · Metric(-3) pascal^(-1/4)"
    simplify_with("a single base unit to a fraction", 5, quarter)
    simplify_with("a single base unit to a fraction, as a candidate", 5, quarter, "metre^(1/2)")
    simplify_with("a single base unit, the scale just inside 1e-9", 5, "nearspeed · second")
    simplify_with("a single base unit, the scale just outside 1e-9", 5, "farspeed · second", "metre")


def scales():
    speed, zero = "metre · second^-1", "Metric(-1100) nearspeed"
    nan = "Metric(-1100) metre · Metric(-1100) second^-1"
    simplify_with("a candidate's scale just inside 1e-9", 5, speed, "nearspeed")
    simplify_with("a candidate's scale just outside 1e-9", 5, speed, "farspeed")
    simplify_with("both scales zero", 5, f"Metric(-1100) {speed}", zero)
    simplify_with("a NaN scale beside one and beside zero", 5, nan, "nearspeed", zero)
    simplify_with("both scales infinite", 5, f"Metric(1100) {speed}", "Metric(1100) nearspeed")


def orders():
    """Candidates: their number, then for each its rank and its list."""
    unit = "joule · second^-1"
    simplify_with("32 candidates", 5, unit, *["bit"] * 31, "watt")
    simplify_with("33 candidates, before their lists", 5, unit, *["unknown"] * 33)
    simplify_with("ranks far apart", 5, unit, "bit", "watt", ranks=[0, 65535])
    simplify_with("equal ranks", 5, unit, "bit", "watt", ranks=[5, 5])
    simplify_with("falling ranks", 5, unit, "bit", "watt", ranks=[65535, 0])
    simplify_with("equal ranks, before the second's list", 5, unit, "watt", "unknown", ranks=[5, 5])
    simplify_with("an unknown row before equal ranks", 5, unit, "unknown", "watt", ranks=[5, 5])
    simplify_with("an unknown row after equal ranks", 5, unit, "bit", "watt", "unknown", ranks=[5, 5, 6])
    simplify_with("an unknown row after the candidate that would win", 5, unit, "watt", "unknown")
    simplify_with("an unknown row and an exponent 2/4 in one list", 5, unit, "unknown · watt^(2/4)")
    simplify_with("an unknown row in the quantity before equal ranks", 5, "unknown", "bit", "watt", ranks=[5, 5])


def marks():
    unit = "second · metre · metre^0 · second"
    simplify("no mark", 5, unit, mark=0)
    simplify_with("no mark, and a candidate that would win", 5, "joule · second^-1", "watt", mark=0)
    simplify_with("no mark, and an unknown row in a candidate", 5, unit, "unknown", mark=0)
    simplify_with("no mark, and equal ranks", 5, unit, "bit", "watt", ranks=[5, 5], mark=0)


def values():
    special = {"zero": 0.0, "negative zero": -0.0, "NaN": math.nan, "infinity": math.inf}
    for name, value in special.items():
        simplify(f"the value {name}", value, "hour · second · metre")
        simplify_with(f"the value {name}", value, "newton · metre", "joule")
    simplify("an infinite prefix factor, over itself in the own list", 5, "percent · Metric(1100) metre")


def sixteen():
    simplify("16 factors of 16 keys", 5, " · ".join(reversed(KEYS)), units=KEYS)
    some = [name for name in UNITS if name not in ("radian", "degree", "nearspeed", "farspeed")]
    simplify("16 factors of 9 keys", 5, " · ".join(some))


# ---- answers


def answers(file):
    stream, at = pathlib.Path(file).read_bytes(), 0
    while at < len(stream):
        number, length = struct.unpack_from("<II", stream, at)
        yield number, stream[at : at + 8 + length]
        at += 8 + length


def store(file, rust, reading):
    both = zip(answers(rust), answers(reading), strict=True)
    judged = [by_01 if number in OUTSIDE else by_rust for (number, by_rust), (_, by_01) in both]
    records = [asked + answer for (_, _, asked), answer in zip(cases, judged, strict=True)]
    pathlib.Path(file).write_bytes(b"".join(records))
    print(f"{len(records)} records, {sum(map(len, records))} bytes")


def table(*files):
    texts = [pathlib.Path(file).read_text(encoding="utf-8") for file in files]
    lines = [re.findall("^  -> (.*)$", text, re.MULTILINE) for text in texts]
    print("| case | the Rust | 01 |")
    print("|---|---|---|")
    for (label, names, _), *said in zip(cases, *lines, strict=True):
        named = [re.sub(r"row(\d+)", lambda row: names[int(row[1])], answer) for answer in said]
        print("| " + " | ".join([label, *named]) + " |")


def told(word="", *files):
    if word == "requests":
        sys.stdout.buffer.write(b"".join(asked for _, _, asked in cases))
    else:
        {"store": store, "table": table}[word](*files)


def main(*words):
    simplifying = (examples, roots, groups, multiples, ranges)
    for part in simplifying + (choices, base_units, scales, orders, marks, values, sixteen, halves):
        part()
    told(*words)


if __name__ == "__main__":
    main(*sys.argv[1:])
