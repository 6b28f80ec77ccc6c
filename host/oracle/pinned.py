#!/usr/bin/env python3
"""Named cases of the rules that the algebra of exponents leaves free, and of a sixteenth base row, as requests.

  pinned.py FILE requests                      writes the stream of a file's cases: `rules` or `sixteenth`
  pinned.py FILE store RECORDS RUST READING    as named.py does, and
  pinned.py FILE table RUST READING

The cases of `rules` stand in crates/promises/proofs/Pinned.antt as well, in this order; a label has the rule, and another
that would answer otherwise. A unit is written as in named.py.
"""
import struct
import sys

from edges import MOST, bits, request
from named import cases, list_of, rows_of, told

CALLS = {"product": 2, "quotient": 3, "list_power": 4, "canonical": 5, "reduce_list": 7, "reduce": 8, "convert_to": 9}
CALLS |= {"add": 10, "subtract": 11, "multiply": 12, "checked_div": 13, "checked_power": 14, "equal": 17, "compare": 18}
CALLS |= {"smaller_unit": 19, "is_multiple_of": 20, "full_simplify": 21, "full_simplify_with": 22}

# 01's bench list; minute ranks below hour.
BENCH = {
    "gram": None,
    "metre": None,
    "second": None,
    "bit": None,
    "minute": (60.0, "second"),
    "hour": (60.0, "minute"),
    "byte": (8.0, "bit"),
    "newton": (1.0, "Metric(3) gram · metre · second^-2"),
}
BENCH_ORDER = ["bit", "byte", "gram", "minute", "hour", "metre", "newton", "second"]

# Units of a blade shop: scales that round; keys that are turned, divided and made whole.
SHOP = {
    "gram": None,
    "metre": None,
    "second": None,
    "percent": (0.01, ""),
    "thread": (1.0, "metre^-1"),
    "are": (100.0, "metre^2"),
    "inch": (0.0254, "metre"),
    "foot": (12.0, "inch"),
    "pound": (453.59237, "gram"),
    "poundforce": (32.17404855643044, "pound · foot · second^-2"),
    "steel": (7850.0, "Metric(3) gram · metre^-3"),
    "toughness": (1.0, "Metric(6) gram · metre^(-1/2) · second^-2"),
}

# Sixteen base units in the order of their names, and units over the first, the fifteenth and the sixteenth.
BASES = "ampere bit candela degree euro farad gram henry item joule kelvin lumen metre newton ohm pixel"
BASES = dict.fromkeys(BASES.split())
SIXTEEN = BASES | {"tile": (64.0, "pixel"), "mesh": (2.0, "ohm · pixel^-1"), "scan": (1.0, "ampere · pixel^2")}


# ---- a case: an argument is a list, a whole exponent, a quantity (value, list; then 0 for unmarked) or candidates


def argument(given, names):
    if isinstance(given, str):
        return list_of(given, names)
    if isinstance(given, int):
        return struct.pack("<iI", given, 1)
    if isinstance(given, tuple):
        value, unit, *mark = given
        return struct.pack("<QI", bits(float(value)), *(mark or [1])) + list_of(unit, names)
    # ranks are 0, 1, ..
    return b"".join(struct.pack("<HH", rank, 0) + list_of(unit, names) for rank, unit in enumerate(given))


def shown(given):
    if isinstance(given, tuple):
        return " ".join([str(given[0]), given[1], *(["unmarked"] * (len(given) - 2))]).replace("  ", " ").strip()
    if isinstance(given, list):
        return "candidates: " + (", ".join(given) or "none")
    return str(given) or "the scalar"


def ask(units, order, label, call, *given):
    names = list(units)
    label += f": {call} " + "; ".join(map(shown, given))
    asked = [argument(g, names) for g in given]
    cases.append([label, names, request(CALLS[call], rows_of(units, order), *asked)])


def bench(*case):
    ask(BENCH, BENCH_ORDER, *case)


def shop(*case):
    ask(SHOP, None, *case)


# ---- rules that the algebra leaves free


def joins():
    """01, "Canonical form", its last sentence."""
    bench("joined, not merged", "product", "metre · second", "metre")
    bench("joined with exponents negated, not merged", "quotient", "metre · second", "metre")
    bench("zeros kept, not gone", "list_power", "metre · second", 0)


def orders():
    """01, "Canonical form": key, rank, prefix."""
    bench("Metric before Binary, not Binary or n first", "canonical", "Binary(0) metre · Metric(3) metre")
    bench("n rising, not falling or by magnitude", "canonical", "Metric(3) metre · Metric(1) metre · Metric(-3) metre")
    bench("by key, not by rank first", "canonical", "metre · newton")
    bench("a shorter beginning first, not a longer one", "canonical", "newton · gram")
    shop("numbers by sign, not by magnitude", "canonical", "poundforce · steel")
    shop("the key's first number turned positive, not kept below zero", "canonical", "thread · metre")
    shop("the key divided by its common divisor, not left as it is", "canonical", "metre · are")
    shop("the key made whole, not left in fractions", "canonical", "toughness · poundforce")
    bench("rows of one key by rank, not by their numbers", "canonical", "second · hour · minute")
    bench("by rank, not by prefix first", "canonical", "hour · Metric(3) minute")
    bench("merged from left to right, not from the right", "canonical", f"metre^{MOST} · metre · metre^-1")


def scales():
    """01, "Powers and scales"."""
    bench("base factors by rank, not by the row's number", "reduce_list", "metre · bit")
    ask(BASES, None, "a sixteenth base row has its exponent, not none", "reduce_list", "pixel")
    shop("multiplied from the left, not from the right", "reduce_list", "inch · foot · pound")
    shop("the factor times the definition's scale, not times its first factor", "reduce_list", "poundforce")
    shop("prefix and row raised together, not apart", "reduce_list", "Metric(-3) inch^2")
    bench("a root of exactly 1 as prefix and row make it, not as each has it", "reduce_list", "Metric(-3) newton^(1/2)")
    bench("the value times the scale, not divided by it", "reduce", (5, "hour"))


def conversions():
    """01, "Conversion, sums, comparison"."""
    shop("of two exponents above zero the smaller, not the larger", "convert_to", (3, "foot · inch"), "inch^2")
    shop("of two below zero the larger, not the smaller", "convert_to", (1, "foot^-1 · inch^-1"), "inch^-2")
    shop("common factors taken out of both, not left in", "convert_to", (1, "foot^2"), "foot · inch")
    shop("the own list as it is, not merged", "convert_to", (1, "foot^2 · inch^-3"), "inch^-1")
    shop("the target merged, not as it is", "convert_to", (1, "inch^-3"), "inch^-2 · foot^-1")
    shop("times the own scale and then divided, not times the quotient of both", "convert_to", (3, "foot"), "inch")
    shop("equal lists keep the value, not scaled and back", "convert_to", (1, "inch · pound"), "pound · inch")
    shop("the second converted to the first's list, not the first", "equal", (36, "inch"), (3, "foot"))
    shop("the second converted to the first's list, not the first", "compare", (36, "inch"), (3, "foot"))
    bench("the mark set afresh, not kept", "convert_to", (6, "hour", 0), "minute")


def sums():
    bench("the smaller scale, not self's", "add", (1, "hour"), (30, "minute"))
    bench("the smaller scale, not the other's", "add", (30, "minute"), (1, "hour"))
    bench("self on a tie, not the other", "add", (1, "Binary(0) metre"), (2, "metre"))
    spelled = (1, "second · metre"), (2, "metre · second")
    bench("equal lists as self is spelled, not as the other or in order", "add", *spelled)
    bench("self with its mark where the other is zero, not with a fresh one", "add", (5, "metre", 0), (0, "second"))
    bench("of two zeros the other, not self", "add", (0, "metre"), (0, "second", 0))
    bench("equal lists give a fresh mark, not one kept", "add", (1, "metre", 0), (2, "metre", 0))
    bench("the first on a tie, not the second", "smaller_unit", "Binary(0) metre", "metre")
    nan = "Metric(-1100) metre · Metric(-1100) second^-1"
    bench("a NaN scale answers the second, not the one that has a scale", "smaller_unit", "metre", nan)


def powers():
    """01, "The refusals": the exponent's conversion, ZERONEG, NONWHOLE, RANGE."""
    bench("the exponent's conversion before ZERONEG, not after it", "checked_power", (0, "metre"), (-1, "second"))
    bench("ZERONEG before NONWHOLE, not after it", "checked_power", (0, "metre"), (-0.5, ""))
    bench("RANGE for the scalar too, not an answer", "checked_power", (2, ""), (MOST + 1, ""))


def simplifications():
    """01, "Simplification": one factor, groups."""
    bench("without the mark as it is, not in order", "full_simplify", (5, "second · metre", 0))
    bench("scalars are a multiple of one another, not none", "is_multiple_of", "hour · second^-1", "")
    bench("the first factor in order that fits, not the last or the first given", "full_simplify", (2, "hour · minute"))
    shop("a whole multiple, not any", "full_simplify", (5, "are · metre"))
    bench("base before derived, not the last of one exponent", "full_simplify", (5, "bit · byte · metre"))
    bench("base before derived, not by exponent first", "full_simplify", (5, "hour^3 · second^-1 · metre"))
    bench("then the greater exponent, not the last", "full_simplify", (5, "minute^2 · hour · metre"))
    bench("the greater with its sign, not by magnitude", "full_simplify", (5, "minute^-1 · hour^-2 · metre"))
    bench("the last on a tie, not the first", "full_simplify", (5, "minute · hour · metre"))
    shop("exponents times the rows' own, not summed alone", "full_simplify", (5, "metre · are · gram"))
    shop("a group of scalar base gone, not kept", "full_simplify", (5, "percent · metre · gram"))
    groups = (3, "foot · metre · pound · gram")
    shop("the value times the product of groups, not times one after the other", "full_simplify", groups)


def choices():
    """01, "Simplification": the registry form."""
    three, four = "Metric(3) gram · metre · second^-2", "Metric(3) gram · metre · second^-2 · bit"
    over = "Metric(-3) newton · gram^-1 · metre^-1"
    chosen = "full_simplify_with"
    bench("fewer factors than now, not as many", chosen, (5, "newton · bit"), ["Binary(0) newton · bit"])
    bench("the fewest, not the first", chosen, (5, four), ["newton · bit^2 · bit^-1", "newton · bit"])
    bench("the first on a tie, not the last", chosen, (5, four), ["newton · bit", "bit · newton"])
    bench("one factor wins at once, not after a look at all", chosen, (5, three), ["newton", f"bit^{MOST} · bit"])
    bench("a candidate of the same scale, not of any", chosen, (5, three), ["Metric(3) newton"])
    bench("the single base unit before the candidates, not after them", chosen, (5, over), ["Binary(0) second^-2"])
    roots = "Metric(-3) newton^(1/4) · gram^(-1/4) · metre^(-1/4)"
    bench("the single base unit to a whole exponent, not to any", chosen, (5, roots), [])
    bench("the single base unit of scale 1, not of any", chosen, (5, "newton · gram^-1 · metre^-1"), [])


def rules():
    for part in (joins, orders, scales, conversions, sums, powers, simplifications, choices):
        part()


# ---- a sixteenth base row


def sixteenth():
    """Pixel is the sixteenth base row; it is the last in rank, then the first, so that ampere is the last."""

    def last(*case):
        ask(SIXTEEN, None, *case)

    def first(*case):
        ask(SIXTEEN, sorted(SIXTEEN, reverse=True), *case)

    for unit in ("pixel", "tile", "mesh · scan"):
        last("base exponents", "reduce_list", unit)
        first("base exponents, ranks turned round", "reduce_list", unit)
    first("base exponents, ranks turned round", "reduce_list", "ampere")
    last("base exponents of a quantity", "reduce", (5, "tile"))
    for put, more in ((last, ""), (first, ", ranks turned round")):
        put("to scalar" + more, "convert_to", (5, "pixel"), "")
        put("beside another" + more, "convert_to", (5, "ohm · pixel"), "ohm")
        put("a multiple" + more, "is_multiple_of", "pixel^6", "pixel^2")
        put("no scalar" + more, "full_simplify", (5, "tile"))
    first("the last in rank to scalar", "convert_to", (5, "ampere"), "")
    last("to itself with a prefix", "convert_to", (5, "Metric(3) pixel"), "pixel")
    last("to its square", "convert_to", (5, "tile"), "pixel^2")
    last("to the fifteenth", "convert_to", (5, "pixel"), "ohm")
    last("from the fifteenth", "convert_to", (5, "ohm"), "pixel")
    last("to the first", "convert_to", (5, "pixel"), "ampere")
    last("through a definition", "convert_to", (5, "mesh · scan"), "ohm · ampere · Metric(3) pixel")
    last("to scalar, of a zero", "convert_to", (0, "pixel"), "")
    last("with itself", "equal", (64, "pixel"), (1, "tile"))
    last("with a number", "equal", (5, "pixel"), (5, ""))
    last("with its square", "equal", (5, "pixel"), (5, "pixel^2"))
    last("with itself", "compare", (65, "pixel"), (1, "tile"))
    last("with a number", "compare", (5, "pixel"), (3, ""))
    last("with itself", "add", (6, "pixel"), (1, "tile"))
    last("and a number", "add", (6, "pixel"), (1, ""))
    last("beside another", "subtract", (6, "ohm · pixel"), (1, "ohm"))
    last("joined", "product", "pixel · ohm", "tile")
    last("joined with exponents negated", "quotient", "pixel · ohm", "tile")
    last("joined", "multiply", (5, "pixel"), (3, "tile"))
    last("joined with exponents negated", "checked_div", (6, "pixel"), (3, "tile"))
    last("raised", "checked_power", (2, "pixel"), (3, ""))
    last("as an exponent", "checked_power", (2, ""), (3, "pixel"))
    last("behind the fifteenth", "canonical", "pixel · ohm")
    last("one key with what it defines", "canonical", "tile · metre · pixel")
    last("the smaller scale", "smaller_unit", "tile", "pixel")
    last("no multiple of another", "is_multiple_of", "scan", "ampere")
    last("no multiple of a number", "is_multiple_of", "pixel", "")
    last("one factor", "full_simplify", (5, "tile · pixel"))
    last("a group of its own", "full_simplify", (5, "tile · pixel · ampere"))
    last("the single base unit", "full_simplify_with", (5, "Binary(-1) mesh · ohm^-1"), ["Binary(0) pixel^-1"])
    last("a candidate", "full_simplify_with", (5, "ampere · pixel^2 · ohm"), ["ampere · ohm", "scan · ohm"])


def main(file, *words):
    {"rules": rules, "sixteenth": sixteenth}[file]()
    told(*words)


if __name__ == "__main__":
    main(*sys.argv[1:])
