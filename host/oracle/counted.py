#!/usr/bin/env python3
"""Conversions by both rules with their multiplications counted (02, order 5), with answers worked out here from 02's
sentences.

  counted.py write FOLDER   edges-counted.bin
  counted.py list           every record in words, with its answer

Values and refusals are those of merged.py; a unit is written as in named.py. Each case is asked by both codes. A record has
the form of the stored list. The count that 02's readings give a case, or that was worked out by hand, stands with it, and
the program ends with an error if its own account says otherwise.
"""
import math
import pathlib
import struct
import sys

from edges import DENOMINATOR, FRACTION, MOST, RANGE, SHAPE, TABLE, UNKNOWN, Refused, bits, fields, given, refused
from edges import request, table_bytes, unit_of
from halves import UNITS, Table, shared
from merged import BY_ENDS, IN_WILD, converted
from named import factors, list_of, ranked
from pinned import BENCH, BENCH_ORDER

CONVERT_TO_COUNTED, CONVERT_MERGED_COUNTED = 30, 31

# No base exponents: sizes of exactly 1, as they are and under a prefix, and others.
ALONE = {"near": (1.000000000465661, "")}
SIZES = {"one": (1.0, ""), "two": (2.0, ""), "milli": (0.001, ""), "kibi": (2.0**-10, "")}
ENDS = {"one": (1.0, ""), "tiny": (2.0**-1023, ""), "huge": (2.0**1023, "")}
FOUR = dict.fromkeys("abcd", (1.0, ""))
EIGHT = dict.fromkeys("abcdefgh", (1.0, ""))
# Rows whose own scales take many multiplications.
DEEP = {"near": (1.000000000465661, ""), "power": (2.0, f"near^{MOST}"), "again": (1.0, "Metric(3) power^-7 · near^99")}
DEEP |= {"more": (3.0, "again^5 · Binary(10) power^3")}

IN_ALONE, IN_SIZES, IN_ENDS, IN_DEEP = ({"units": units, "order": None} for units in (ALONE, SIZES, ENDS, DEEP))
IN_FOUR, IN_EIGHT = ({"units": units, "order": None} for units in (FOUR, EIGHT))


# ---- 02's count


def multiplications(n):
    """02: set bits plus bit length minus one for nonzero n, none for zero."""
    size = abs(n)
    return size.bit_count() + size.bit_length() - 1 if size else 0


def of_factor(factor):
    """Its prefix power, then the power to its numerator; none where exactly 1 answers a fraction."""
    _, _, n, num, den = factor
    return multiplications(n) + (multiplications(num) if den == 1 else 0)


def counted(table, x, own, target, merged):
    """The value, which is refused first if it is, and the count of both scales' factors."""
    value = converted(table, x, own, target, merged)
    t = Table(table)
    mine, wanted = t.canonical(own), t.canonical(target)
    if mine == wanted or x == 0.0:
        return value, 0
    common = [(*place, *fields(-e)) for place, e in shared(mine, wanted)]
    own_left = t.canonical(own + common) if merged else own + common
    return value, sum(map(of_factor, own_left + t.canonical(target + common)))


# ---- records: a label, a request, its answer

records = []


class No:
    """A refusal, where a count could stand."""

    def __init__(self, number):
        self.number = number

    def __eq__(self, other):
        return isinstance(other, No) and self.number == other.number

    def __repr__(self):
        return f"refused {self.number}"


def worked(table, x, own, target, merged):
    try:
        return counted(table, x, own, target, merged)
    except Refused as refusal:
        return math.nan, No(*refusal.args)


def written(answer, target):
    """A Counted: the quantity in the target as it is spelled, the mark set; the count; reserved."""
    value, count = answer
    if isinstance(count, No):
        return refused(count.number)
    return given(struct.pack("<QI", bits(value), 1) + unit_of(*target) + struct.pack("<II", count, 0))


def ask(label, own, target, old=None, new=None, x=5.0, mark=1, units=BENCH, order=BENCH_ORDER):
    """`old` and `new` are the counts, or refusals, that are said of the two rules; None says nothing."""
    names, table = list(units), ranked(units, order)
    lists = factors(own, names), factors(target, names)
    arguments = [table_bytes(table), struct.pack("<QI", bits(x), mark) + list_of(own, names), list_of(target, names)]
    for code, says in ((CONVERT_TO_COUNTED, old), (CONVERT_MERGED_COUNTED, new)):
        answer = worked(table, x, *lists, code == CONVERT_MERGED_COUNTED)
        if says is not None and answer[1] != says:
            sys.exit(f"counted: {label}, code {code}: {answer[1]}, not {says}")
        told = f"{label}: {x:g} {own or 'scalar'} to {target or 'scalar'}: {answer[1]}"
        records.append((told, request(code, *arguments), written(answer, lists[1])))


def alike(label, own, target, says, **more):
    """Both rules count the same."""
    ask(label, own, target, says, says, **more)


# ---- cases


def example():
    """Reading 30's, and what stands beside it."""
    ask("a zero's prefix", "minute · Metric(3) metre^0", "second", 5, 2)
    ask("without the zero", "minute", "second", 2, 2)
    ask("a zero without prefix", "minute · metre^0", "second", 2, 2)
    ask("a zero below a prefix of 24", "Metric(-24) byte^0 · minute", "second", 8, 2)
    ask("two zeros", "Metric(3) metre^0 · minute · Metric(3) metre^0", "second", 8, 2)
    ask("a zero in the target is merged away", "minute", "second · Metric(3) metre^0", 2, 2)
    ask("of the bench list", "hour", "minute", 2, 2, x=6.0)
    ask("of the bench list", "Binary(10) byte", "bit", 7, 7, x=1.0)


def powers():
    """One power: set bits plus bit length minus one; at most 61. 1/r of a negative one isn't counted."""
    counts = {1: 1, 2: 2, 3: 3, 4: 3, 5: 4, 6: 4, 7: 5, 8: 4, 15: 7, 16: 5, 100: 9, 255: 15, 256: 9, 1023: 19}
    counts |= {65535: 31, 65536: 17, 1431655765: 46, 2**30 - 1: 59, 2**30: 31, 2**30 + 1: 32, MOST - 1: 60, MOST: 61}
    for n, count in counts.items():
        alike("a power", f"near^{n}", "", count, **IN_ALONE)
    for n in (1, 2, 3, 6, 255, 65536, 2**30 - 1, MOST - 1, MOST):
        alike("1/r isn't counted", f"near^-{n}", "", counts[n], **IN_ALONE)
    for n in (3, MOST, -MOST):
        alike("a power in the target", "", f"near^{n}", counts[abs(n)], **IN_ALONE)
    alike("a power on both sides", f"near^{MOST}", f"near^-{MOST}", 122, **IN_ALONE)


def prefixes():
    """A prefix power; at most 19, and none for no prefix. That of ±1023 is the most, though 1100 has more bits."""
    counts = {0: 0, 1: 1, 2: 2, 3: 3, 6: 4, 10: 5, 15: 7, 24: 6, 30: 8, 511: 17, 512: 10, 1022: 18, 1023: 19}
    counts |= {1024: 11, 1087: 17, 1099: 15, 1100: 14}
    for n, count in counts.items():
        alike("a prefix, and a power of 1", f"Metric({n}) near", "", count + 1, **IN_ALONE)
    for n in (-1, -3, -24, -1023, -1100):
        alike("a prefix below zero", f"Metric({n}) near", "", counts[-n] + 1, **IN_ALONE)
    for n in (0, 10, -10, 1023, -1023, 1100):
        alike("a binary one", f"Binary({n}) near", "", counts[abs(n)] + 1, **IN_ALONE)
    alike("a prefix and a power, each at its most", f"Metric(1023) near^{MOST}", "", 80, **IN_ALONE)
    alike("both below zero", f"Binary(-1023) near^-{MOST}", "", 80, **IN_ALONE)
    alike("in the target", "", f"Metric(-1023) near^{MOST}", 80, **IN_ALONE)
    alike("on both sides", "Metric(3) near^2", "Metric(-3) near^2", 10, **IN_ALONE)


def zeros():
    """The prefix power of a factor to 0 is worked out where the list isn't merged."""
    ask("a prefix of 1023 to 0", "two · Metric(1023) two^0", "", 20, 1, **IN_SIZES)
    ask("of -1023, first", "Binary(-1023) two^0 · two", "", 20, 1, **IN_SIZES)
    ask("no prefix in two ways, to 0", "Binary(0) one^0 · two · one^0", "", 1, 1, **IN_SIZES)
    ask("zeros alone are the scalar", "Metric(1023) two^0 · Metric(3) one^0", "", 0, 0, **IN_SIZES)
    ask("zeros alone, to another unit", "Metric(1023) two^0 · Metric(3) one^0", "two", 23, 1, **IN_SIZES)
    ask("a zero of a size that is infinite", "Metric(1100) two^0 · two", "", 15, 1, **IN_SIZES)
    ask("a zero by merging", "Metric(3) two^5 · one · Metric(3) two^-5", "", 15, 1, **IN_SIZES)
    ask("a zero over the common list", "Metric(3) two · one^2", "Metric(3) two", 10, 2, **IN_SIZES)
    ask("fifteen of them", " · ".join(["Metric(1023) one^0"] * 15 + ["two"]), "", 286, 1, **IN_SIZES)


def roots():
    """A fraction over exactly 1: its prefix power, and no power to its numerator."""
    alike("no prefix", "one^(1/2)", "", 0, **IN_SIZES)
    alike("a numerator that would count", f"one^({MOST}/2)", "", 0, **IN_SIZES)
    alike("below zero", f"one^(-{MOST}/{MOST - 1})", "", 0, **IN_SIZES)
    alike("exactly 1 under Metric(3)", "Metric(3) milli^(1/2)", "", 3, **IN_SIZES)
    alike("exactly 1 under Binary(10)", "Binary(10) kibi^(-7/12)", "", 5, **IN_SIZES)
    for unit in ("Binary(1023) tiny", "Binary(-1023) huge"):
        alike("the most for a prefix", f"{unit}^({MOST}/2)", "", 19, **IN_ENDS)
        alike("in the target", "one", f"{unit}^(1/3)", 20, **IN_ENDS)
        alike("its whole power is counted", f"{unit}^{MOST}", "", 80, **IN_ENDS)
    alike("a whole power of exactly 1 is counted", "one^65535", "", 31, **IN_SIZES)
    alike("and one under a prefix", "Metric(3) milli^2", "", 5, **IN_SIZES)
    alike("in the target", "two", "Metric(3) milli^(5/6)", 4, **IN_SIZES)
    alike("on both sides", "Metric(3) milli^(1/2) · two", "Binary(10) kibi^(1/2)", 9, **IN_SIZES)
    common = "Metric(3) milli^(1/2) · two", "Metric(3) milli^(1/2) · two^2"
    ask("in common", *common, 9, 1, **IN_SIZES)
    ask("in common in part", "Metric(3) milli^(1/2)", "Metric(3) milli^(1/3)", 6, 3, **IN_SIZES)
    ask("halves that sum up to one", "Metric(3) milli^(1/2) · Metric(3) milli^(1/2)", "", 6, 4, **IN_SIZES)


def uncounted():
    """Neither a row's own scale, nor prefix times row scale, nor the running product, nor the value's two operations."""
    for unit in ("power", "again", "more"):
        alike("a row scale is in hand", unit, "", 1, **IN_DEEP)
    alike("of four rows", "near · power · again · more", "", 4, **IN_DEEP)
    alike("in the target too", "power", "again^2", 3, **IN_DEEP)
    alike("newton to its base units", "newton", "Metric(3) gram · metre · second^-2", 8)
    alike("back", "Metric(3) gram · metre · second^-2", "newton", 8)
    alike("six factors, a power of 1 each", "two · one · milli · kibi · Binary(0) two · Binary(0) one", "", 6, **IN_SIZES)
    for x in (math.nan, math.inf, -1.0, 5e-324, 1e308):
        alike("whatever the value is", "hour", "minute", 2, x=x)
    alike("a scale of no value", "neither · endless^-3", "nothing^-1", 5, x=2.0, **IN_WILD)
    alike("a size of no value", "Metric(1100) two^3 · Metric(-1100) one^-3", "", 34, **IN_SIZES)
    for mark in (0, 7):
        alike("whatever the mark is", "hour", "minute", 2, mark=mark)


def in_common():
    """By 01's rule the own factor, its inverted copy, and what is left of the target's; by order 3's only what is left."""
    ask("km/hour to m/hour", "Metric(3) metre · hour^-1", "metre · hour^-1", 7, 5)
    ask("more in the own list", "hour^3", "hour^2 · minute", 6, 2)
    ask("more in the target", "hour^2 · minute", "hour^3", 6, 2)
    ask("below zero", "hour^-3", "hour^-2 · minute^-1", 6, 2)
    ask("opposite signs", "minute^-1", "minute · second^-2", 4, 4)
    ask("its prefix each time", "Metric(1023) two · one", "Metric(1023) two", 41, 1, **IN_SIZES)
    ask("its prefix three times", "Metric(1023) two", "Metric(1023) two^3", 61, 21, **IN_SIZES)
    ask("an own exponent as it is given", "two^5 · two^-2", "two", 7, 2, **IN_SIZES)
    ask("a sum that is common", "two · one · two", "two^2 · milli", 6, 2, **IN_SIZES)
    ask("all of the own list", "two · one", "two · one · milli", 5, 1, **IN_SIZES)
    ask("all of the target", "two · one · milli", "two · one", 5, 1, **IN_SIZES)
    far, near = f"two^{MOST - 1}", f"two^{2**30 - 1}"
    ask("the most of three powers", near, far, 177, 59, **IN_SIZES)
    ask("as many otherwise", f"two^{2**30 + 2**29 - 1}", far, 177, 57, **IN_SIZES)
    ask("turned round", far, near, 119, 59, **IN_SIZES)


def spelled():
    """The own list as given, or merged; the target merged by both rules."""
    ask("four times", "two · two · two · two", "", 4, 3, **IN_SIZES)
    ask("seven times", " · ".join(["two"] * 7), "", 7, 5, **IN_SIZES)
    ask("two squares", "two^2 · two^2", "", 4, 3, **IN_SIZES)
    ask("forth and back", "two^3 · one · two^-1", "", 5, 3, **IN_SIZES)
    ask("far forth and back", f"two^{MOST} · one · two^-{MOST - 1}", "", 122, 2, **IN_SIZES)
    ask("a power that merging makes long", f"two^{2**30} · two^{2**30 - 1}", "", 90, 61, **IN_SIZES)
    alike("the target is merged", "one", "two · two · two · two", 4, **IN_SIZES)
    alike("the target's zeros go", "one", "two · Metric(1023) two^0 · milli^0", 2, **IN_SIZES)
    alike("the target forth and back", "one", f"two^{MOST} · Metric(3) two · two^-{MOST}", 5, **IN_SIZES)
    for own in ("two · milli^3 · kibi^7", "kibi^7 · two · milli^3", "milli^3 · kibi^7 · two"):
        alike("in any order", own, "one^5", 13, **IN_SIZES)
    alike("the order of the target", "one^5", "kibi^7 · two · milli^3", 13, **IN_SIZES)
    alike("the target as it is spelled", "minute", "second^2 · second^-1 · byte^0", 2)


def under(names, exponent):
    """Each row under each of the four prefixes of 1023."""
    prefixes_ = [f"{kind}({n})" for kind in ("Metric", "Binary") for n in (1023, -1023)]
    return " · ".join(f"{prefix} {name}^{exponent}" for name in names for prefix in prefixes_)


def most():
    """Sixteen factors on both sides: 3,744 by 01's rule, 2,560 by order 3's, and their neighbours."""
    near, far = 2**30 - 1, MOST - 1
    ask("the most by 01's rule", under("abcd", near), under("abcd", far), 3744, 1248, **IN_FOUR)
    ask("below zero", under("abcd", -near), under("abcd", -far), 3744, 1248, **IN_FOUR)
    ask("as many otherwise", under("abcd", 2**30 + 2**29 - 1), under("abcd", far), 3744, 1216, **IN_FOUR)
    ask("one more in the target", under("abcd", near), under("abcd", MOST), 3296, 800, **IN_FOUR)
    ask("one more in the own list", under("abcd", near + 1), under("abcd", far), 2832, 1232, **IN_FOUR)
    ask("turned round", under("abcd", far), under("abcd", near), 2512, 1248, **IN_FOUR)
    ask("the most by order 3's rule", under("abcd", MOST), under("efgh", MOST), 2560, 2560, **IN_EIGHT)
    ask("opposite signs", under("abcd", MOST), under("abcd", -MOST), 2560, 2560, **IN_FOUR)
    ask("twelve factors and sixteen", under("abc", MOST), under("abcd", -MOST), 2240, 2240, **IN_FOUR)
    ask("prefixes of 1100", under("abcd", MOST).replace("1023", "1100"), under("efgh", MOST), 2480, 2480, **IN_EIGHT)
    ask("to the scalar", under("abcd", MOST), "", 1280, 1280, **IN_FOUR)
    ask("from the scalar", "", under("abcd", MOST), 1280, 1280, **IN_FOUR)
    sixteen = " · ".join([f"Metric(1023) a^{2**27 - 1}"] * 16)
    ask("one factor sixteen times", sixteen, "", 1152, 76, **IN_FOUR)
    ask("equal lists at the most", under("abcd", MOST), under("dcba", MOST), 0, 0, **IN_FOUR)
    ask("a zero at the most", under("abcd", MOST), under("efgh", MOST), 0, 0, x=0.0, **IN_EIGHT)


def shortcuts():
    """A zero, and equal lists: the value as it is, and 0."""
    for x in (0.0, -0.0):
        alike("a zero", "hour", "minute", 0, x=x)
        alike("a zero, to any unit", "hour^(1/2)", "metre^(1/3)", 0, x=x)
        alike("a zero, with zeros that have a prefix", "Metric(3) metre^0 · hour", "second", 0, x=x)
    for x in (0.1, math.nan, math.inf):
        alike("equal lists", "hour^7 · Metric(3) metre", "Metric(3) metre · hour^7", 0, x=x)
    alike("equal lists, spelled otherwise", "hour^3 · hour^-1", "hour · hour", 0)
    alike("equal lists with roots", "hour^(1/2) · metre", "metre · hour · hour^(-1/2)", 0)
    alike("equal lists, a zero in one", "hour · Metric(1023) metre^0", "hour", 0)
    alike("two spellings of the scalar", "hour · hour^-1", "", 0)
    alike("the scalar itself", "", "", 0)
    alike("no prefix in two ways is no equality", "metre", "Binary(0) metre", 2)


def refusals():
    """Every refusal is the conversion's own, and has no count, wherever it is met."""
    alike("a faulty table", "hour", "minute", No(TABLE), units=BENCH | {"second": (0.0, "metre")})
    alike("a row's FRACTION", "hour", "minute", No(FRACTION), units=BENCH | {"byte": (8.0, "Metric(3) bit^(1/2)")})
    seventeen = " · ".join(["hour"] * 17)
    alike("17 own factors", seventeen, "unknown", No(SHAPE))
    alike("17 factors of the target", "hour", seventeen, No(SHAPE))
    alike("an exponent 2/4", "hour^(2/4)", "hour", No(SHAPE))
    alike("a prefix beyond 1100", "hour", "Metric(1101) hour", No(SHAPE))
    alike("an unknown row", "unknown", seventeen, No(UNKNOWN))
    alike("an unknown row of the target, of a zero", "hour", "unknown", No(UNKNOWN), x=0.0)
    alike("UNITS", "hour^7", "metre^7", No(UNITS))
    alike("UNITS before FRACTION", "hour^(1/2)", "metre^(1/2)", No(UNITS))
    alike("RANGE of the own list", f"hour^{MOST} · hour", "minute", No(RANGE))
    alike("RANGE of the target, of a zero", "minute", f"hour^{MOST} · hour", No(RANGE), x=0.0)
    alike("DENOMINATOR", "hour^(1/65536) · hour^(1/65537)", "minute", No(DENOMINATOR))
    alike("own FRACTION", "hour^(1/2)", "second^(1/2)", No(FRACTION))
    alike("own FRACTION behind factors that count", "two^255 · Metric(3) one^7 · two^(1/2)", "", No(FRACTION), **IN_SIZES)
    alike("the target's FRACTION", "second^(1/2)", "hour^(1/2)", No(FRACTION))
    alike("the target's, the own scale counted", "two^65535 · one", "Metric(3) one^(1/2)", No(FRACTION), **IN_SIZES)
    behind = "Metric(1023) one^255 · two^(1/2)"
    alike("the target's, both counted before it", "milli^9", behind, No(FRACTION), **IN_SIZES)
    own = under("abcd", MOST)
    in_five = {"units": FOUR | {"other": (3.0, "")}, "order": None}
    alike("the target's, with 1,280 counted", own, "other^(1/2)", No(FRACTION), **in_five)
    alike("a root of an infinite size", "Metric(1100) one^(1/2)", "", No(FRACTION), **IN_SIZES)


def by_one():
    """Where only one of the rules answers (reading 18), only that one counts."""
    ask("a root that cancels", "Metric(3) metre · hour^(1/2)", "metre · hour^(1/2)", No(FRACTION), 5)
    ask("two halves of an hour", "hour^(1/2) · hour^(1/2)", "minute", No(FRACTION), 2)
    powers_ = f"minute^{MOST} · hour · hour^-1", f"second^{MOST}"
    ask("powers that cancel", *powers_, No(RANGE), 122)
    ask("odd roots merged", "high^(1/65536)", "high^(1/65537) · a^(1/65537)", 0, No(DENOMINATOR), **BY_ENDS)
    ask("powers in canonical order", f"a^{MOST} · three^-1 · two", f"one^{MOST}", 124, No(RANGE), **BY_ENDS)


def lengths():
    """An argument of a wrong byte length: no count either."""
    table, names = table_bytes(ranked(SIZES)), list(SIZES)
    own, target = struct.pack("<QI", bits(1.0), 1) + list_of("two^3", names), list_of("one", names)
    for label, says, *arguments in [
        ("a table of one byte less", TABLE, table[:-1], own[:-1], target),
        ("a table of one row less", UNKNOWN, table[:176], own, target),
        ("a quantity of one byte less", SHAPE, table, own[:-1], list_of("unknown", names)),
        ("a quantity of one byte more", SHAPE, table, own + b"\0", target),
        ("a counted quantity", SHAPE, table, own + bytes(8), target),
        ("a list of one byte less", SHAPE, table, own, target[:-1]),
        ("a quantity for the list", SHAPE, table, own, own),
        ("an unknown row before a list of no bytes", UNKNOWN, table, own[:12] + list_of("unknown", names), b""),
    ]:
        for code in (CONVERT_TO_COUNTED, CONVERT_MERGED_COUNTED):
            records.append((f"{label}: refused {says}", request(code, *arguments), refused(says)))


def main(word="", folder=None):
    for cases in (example, powers, prefixes, zeros, roots, uncounted, in_common, spelled, most, shortcuts, refusals):
        cases()
    by_one()
    lengths()
    if word == "write":
        run = b"".join(asked + answer for _, asked, answer in records)
        pathlib.Path(folder, "edges-counted.bin").write_bytes(run)
    for at, (label, asked, _) in enumerate(records if word == "list" else []):
        print(f"counted {at}: call {asked[0]}: {label}")


if __name__ == "__main__":
    main(*sys.argv[1:])
