#!/usr/bin/env python3
"""Requests that leave an exponent's range by either half (02, order 2), with answers worked out here from 02's sentences.

  halves.py write FOLDER   edges-halves.bin
  halves.py list           every record in words, with its answer

Rows, base exponents and scales are those of edges.py. A record has the form of the stored list. The worked cases have the
answers that 02's readings say, and the program ends with an error if its own account says otherwise.
"""
import math
import pathlib
import struct
import sys
from fractions import Fraction

from edges import DENOMINATOR, MOST, RANGE, Refused, admitted_row, base_exponents, bits, divided, exponent, f, fields
from edges import given, power, ranged, refused, request, scale, table_bytes, told, unit_of, value, words

UNITS = 6
LIST_POWER, CANONICAL, SAME, REDUCE_LIST, REDUCE, CONVERT, ADD, POWER = 4, 5, 6, 7, 8, 9, 10, 14
EQUAL, COMPARE, SMALLER, MULTIPLE, SIMPLIFY = 17, 18, 19, 20, 21

# Three base rows; B², A^(1/2), A², A³.
A, B, C, P, Q, X, Y = range(7)


def to(row, num, den=1):
    return f(row, 0, num, den)


def rows_of(ranks=(0, 1, 2)):
    bases = [(rank, None, []) for rank in ranks]
    return bases + [(3 + at, 1.0, [d]) for at, d in enumerate([to(B, 2), to(A, 1, 2), to(A, 2), to(A, 3)])]


# ---- 01's rules on lists, in the order of 02's readings 9 to 15


class Table:
    def __init__(self, table):
        self.rows = []
        for row in table:
            self.rows.append(admitted_row(self.rows, row))
        self.ranks = sorted(row["rank"] for row in self.rows if row["base"])

    def key(self, row):
        pairs = sorted(self.rows[row]["exponents"].items())
        whole = math.lcm(*(e.denominator for _, e in pairs))
        numbers = [int(e * whole) for _, e in pairs]
        divisor = math.gcd(*numbers) * (1 if not numbers or numbers[0] > 0 else -1)
        return [(rank, n // divisor) for (rank, _), n in zip(pairs, numbers)]

    def canonical(self, unit):
        """Merged in the given order, the first sum that leaves its range decides; then by key, rank, prefix."""
        sums = {}
        for *place, num, den in unit:
            place = tuple(place)
            sums[place] = ranged(sums[place] + Fraction(num, den)) if place in sums else Fraction(num, den)
        order = sorted(sums, key=lambda p: (self.key(p[0]), self.rows[p[0]]["rank"], p[1], p[2]))
        return [(*place, *fields(sums[place])) for place in order if sums[place]]

    def base(self, unit):
        """Base row by base row in rank order; in each factor by factor, product then sum."""
        return base_exponents(unit, self.rows, self.ranks)

    def scale(self, unit):
        return scale(unit, self.rows)

    def converted(self, x, own, target, merged=False):
        """By 01; merged is 02's order 3: the own list over the common one is made canonical too."""
        mine, wanted = self.canonical(own), self.canonical(target)
        if mine == wanted or x == 0.0:
            return x
        common = [(*place, *fields(-e)) for place, e in shared(mine, wanted)]
        own_left = self.canonical(own + common) if merged else own + common
        own_base = self.base(own_left)
        left = self.canonical(target + common)
        if own_base != self.base(left):
            raise Refused(UNITS)
        own_scale = self.scale(own_left)
        return divided(x * own_scale, self.scale(left))

    def multiple(self, a, b):
        mine, others = self.base(a), self.base(b)
        if mine == others:
            return Fraction(1)
        first = min(mine, default=None)
        if first not in others:
            return None
        by = ranged(mine[first] / others[first])
        products = {rank: ranged(e * by) for rank, e in sorted(others.items())}
        return by if products == mine else None

    def smaller(self, a, b):
        scales = [(self.base(unit), self.scale(unit))[1] for unit in (a, b)]
        return a if scales[0] <= scales[1] else b

    def base_list(self, exponents):
        rows = {row["rank"]: at for at, row in enumerate(self.rows)}
        return [to(rows[rank], *fields(e)) for rank, e in sorted(exponents.items())]


def shared(mine, wanted):
    """Of two exponents above zero the smaller, of two below the larger."""
    others = {tuple(place): Fraction(num, den) for *place, num, den in wanted}
    for *place, num, den in mine:
        e, other = Fraction(num, den), others.get(tuple(place), Fraction(0))
        if e * other > 0:
            yield place, (min if e > 0 else max)(e, other)


# ---- the calls, as far as the records below go


def quantity(q):
    x, unit = q
    return struct.pack("<QI", bits(x), 1) + unit_of(*unit)


def answer(code, table, *arguments):
    t = Table(table)
    if code == LIST_POWER:
        unit, by = arguments
        by = exponent(*by)
        return unit_of(*[(*place, *fields(ranged(Fraction(num, den) * by))) for *place, num, den in unit])
    if code == CANONICAL:
        return unit_of(*t.canonical(*arguments))
    if code == SAME:
        first, second = map(t.canonical, arguments)
        return words(first == second)
    if code == REDUCE_LIST:
        exponents = t.base(*arguments)
        return value(t.scale(*arguments)) + unit_of(*t.base_list(exponents))
    if code == REDUCE:
        x, unit = arguments[0]
        exponents = t.base(unit)
        return quantity((x * t.scale(unit), t.base_list(exponents)))
    if code == MULTIPLE:
        by = t.multiple(*arguments)
        return struct.pack("<IiI", by is not None, *fields(by or Fraction(0)))
    if code == SMALLER:
        return unit_of(*t.smaller(*arguments))
    return of_quantities(t, code, *arguments)


def of_quantities(t, code, first, second=None):
    x, unit = first
    if code == CONVERT:
        return quantity((t.converted(x, unit, second), second))
    if code == SIMPLIFY:
        try:
            return quantity((t.converted(x, unit, []), []))
        except Refused as refusal:
            assert refusal.args[0] != UNITS, "the later steps are not worked out here"
            raise
    y, other = second
    if code == POWER:
        e = t.converted(y, other, [])
        if abs(e) > MOST:
            raise Refused(RANGE)
        return quantity((power(x, int(e)), [(*p, *fields(ranged(Fraction(n, d) * int(e)))) for *p, n, d in unit]))
    if code == ADD:
        if t.canonical(unit) == t.canonical(other):
            return quantity((x + y, unit))
        smaller = t.smaller(unit, other)
        own = t.converted(x, unit, smaller)
        return quantity((own + t.converted(y, other, smaller), smaller))
    try:
        y = t.converted(y, other, unit)
    except Refused as refusal:
        if code == COMPARE or refusal.args[0] != UNITS:
            raise
        return words(0)
    return words(int(x == y)) if code == EQUAL else words(1 + (x > y) - (x < y))


def argument(code, given):
    """A list, a quantity or the exponent of a power of a list."""
    if isinstance(given, list):
        return unit_of(*given)
    return struct.pack("<iI", *given) if code == LIST_POWER else quantity(given)


# ---- records: a label, a request, its answer

records = []


def ask(label, says, code, *arguments, table=None):
    """`says` is what 02's reading answers, or None if only the account here does."""
    table = table or rows_of()
    try:
        out = given(answer(code, table, *arguments))
    except Refused as refusal:
        out = refused(refusal.args[0])
    if says is not None and out != refused(says):
        sys.exit(f"halves: {label}: {told(out)}, not {says}")
    records.append((label, request(code, table_bytes(table), *(argument(code, a) for a in arguments)), out))


# Lists of which the merging, or only the base exponents, leave the range by either half.
POWERS, ROOTS = [to(A, MOST), to(A, 1)], [to(A, 1, 65536), to(A, 1, 65537)]
HIGH, ODD = to(X, MOST), to(Q, 1, MOST)
TURNED = (1, 0, 2)


def reading_9():
    """One test on the reduced result: the numerator, else the denominator."""
    ask("1/65536 + 1/65537", DENOMINATOR, CANONICAL, ROOTS)
    ask("2147483647 + 1/2", RANGE, CANONICAL, [to(A, MOST), to(A, 1, 2)])
    ask("2147483647/65536 + 1/65537, both halves", RANGE, CANONICAL, [to(A, MOST, 65536), to(A, 1, 65537)])
    ask("both halves, below zero", RANGE, CANONICAL, [to(A, -MOST, 65536), to(A, -1, 65537)])
    ask("1/65536 - 1/65537", DENOMINATOR, CANONICAL, [to(A, 1, 65536), to(A, -1, 65537)])
    ask("1/65536 + 1/32767, in range", None, CANONICAL, [to(A, 1, 65536), to(A, 1, 32767)])
    ask("1/65536 + 1/65537 and back again", DENOMINATOR, CANONICAL, [*ROOTS, to(A, -1, 65537)])
    ask("a sum of roots, then one of powers, each of its row", DENOMINATOR, CANONICAL, [*ROOTS, to(B, MOST), to(B, 1)])
    between = [to(A, 1, 65536), to(B, MOST), to(B, 1), to(A, 1, 65537)]
    ask("a sum of powers before the sum of roots around it", RANGE, CANONICAL, between)
    ask("the first list's roots, the second's powers", DENOMINATOR, SAME, ROOTS, POWERS)
    ask("the first list's powers, the second's roots", RANGE, SAME, POWERS, ROOTS)


def reading_10():
    """Products, quotients, a key's common multiple, a whole exponent."""
    ask("1/65536 times 1/32768", DENOMINATOR, LIST_POWER, [to(A, 1, 65536)], (1, 32768))
    ask("65536 times 32768", RANGE, LIST_POWER, [to(A, 65536)], (32768, 1))
    ask("65537/65536 times itself, both halves", RANGE, LIST_POWER, [to(A, 65537, 65536)], (65537, 65536))
    ask("1/65537 to 0", None, LIST_POWER, [to(A, 1, 65537)], (0, 1))
    ask("the first factor that fails is a root", DENOMINATOR, LIST_POWER, [to(A, 1, 65537), to(B, MOST)], (2, 65539))
    ask("the first factor that fails is a power", RANGE, LIST_POWER, [to(B, MOST), to(A, 1, 65537)], (2, 65539))
    ask("a quotient's denominator", DENOMINATOR, MULTIPLE, [to(A, 1, 65536)], [to(A, 65537)])
    ask("a quotient's numerator", RANGE, MULTIPLE, [to(A, 2)], [to(A, 1, MOST)])
    ask("a quotient's halves both", RANGE, MULTIPLE, [to(A, 65537, 65536)], [to(A, 65521, 65537)])
    ask("a product's numerator", RANGE, MULTIPLE, [to(A, 1)], [to(A, 1, 2), to(B, MOST)])
    ask("a product's denominator", DENOMINATOR, MULTIPLE, [to(A, 1)], [to(A, 2), to(B, 1, MOST)])
    halves = [to(A, 3)], [to(C, MOST), to(B, 1, MOST), to(A, 2)]
    ask("products of either half, the lowest base row's first", DENOMINATOR, MULTIPLE, *halves)
    ask("products of either half, ranks turned", RANGE, MULTIPLE, *halves, table=rows_of((0, 2, 1)))
    ask("the first's base exponents before the second's", RANGE, MULTIPLE, [HIGH], [ODD])
    ask("the first's base exponents before the second's", DENOMINATOR, MULTIPLE, [ODD], [HIGH])
    ask("a whole exponent beyond", RANGE, POWER, (2.0, []), (2147483648.0, []))
    ask("a product of a whole power", RANGE, POWER, (2.0, [to(A, 1, 3), to(B, 2)]), (float(MOST), []))
    ask("an odd root in a power's exponent", DENOMINATOR, POWER, (2.0, [to(A, MOST)]), (2.0, ROOTS))


def reading_11():
    """Base row by base row in rank order; within it product, then partial sum."""
    ask("the lowest base row's root, though a power fails first", DENOMINATOR, REDUCE_LIST, [to(P, MOST), ODD])
    ask("the lowest base row's root, the root first", DENOMINATOR, REDUCE_LIST, [ODD, to(P, MOST)])
    ask("ranks turned", RANGE, REDUCE_LIST, [to(P, MOST), ODD], table=rows_of(TURNED))
    ask("ranks turned, the root first", RANGE, REDUCE_LIST, [ODD, to(P, MOST)], table=rows_of(TURNED))
    ask("at one base row a sum before a later product", RANGE, REDUCE_LIST, [to(A, MOST), to(A, 1), ODD])
    ask("at one base row a sum of roots before a later product", DENOMINATOR, REDUCE_LIST, [*ROOTS, HIGH])
    ask("at one base row a product before a later sum", DENOMINATOR, REDUCE_LIST, [to(A, MOST), ODD, to(A, 1)])
    ask("factors without the base row add nothing", DENOMINATOR, REDUCE_LIST, [to(B, MOST), to(C, MOST), ODD])
    ask("a quantity's", DENOMINATOR, REDUCE, (5.0, [to(P, MOST), ODD]))
    ask("in range", None, REDUCE_LIST, [to(P, 1, MOST), to(Q, MOST)])
    ask("the first list's, then the second's", RANGE, SMALLER, [HIGH], [ODD])
    ask("the first list's, then the second's", DENOMINATOR, SMALLER, [ODD], [HIGH])


def reading_12():
    """A row: all base exponents, then the key."""

    def row(label, says, *definitions, ranks=(0, 1, 2)):
        more = [(20 + at, 1.0, definition) for at, definition in enumerate(definitions)]
        ask(label, says, CANONICAL, [], table=rows_of(ranks) + more)

    keyed, over = [to(A, 1, 65536), to(B, 1, 65537)], [to(C, MOST), to(C, 1)]
    row("a common multiple", DENOMINATOR, keyed)
    row("a common multiple at its third denominator", DENOMINATOR, [to(A, 1, 65536), to(B, 1, 32767), to(C, 1, 3)])
    row("a power at the last base row, and a common multiple", RANGE, keyed + over)
    row("a power at the first base row, and a common multiple", RANGE, keyed + over, ranks=(1, 2, 0))
    row("a root at the lowest base row, a power above it", DENOMINATOR, [to(P, MOST), ODD])
    row("a power at the lowest base row, a root above it", RANGE, [to(P, MOST), ODD], ranks=TURNED)
    row("a row with a common multiple before one with a power", DENOMINATOR, keyed, over)
    row("a row with a power before one with a common multiple", RANGE, over, keyed)
    row("a common multiple in range", None, [to(A, 1, 65536), to(B, 1, 32767)])


def reading_13():
    """Both canonical forms, own base exponents, the target over the common list, its base exponents."""

    def convert(label, says, own, target, x=1.0):
        ask(label, says, CONVERT, (x, own), target)

    convert("own powers, target's roots", RANGE, POWERS, ROOTS)
    convert("own roots, target's powers", DENOMINATOR, ROOTS, POWERS)
    convert("the target's merging before own base exponents", DENOMINATOR, [HIGH], ROOTS)
    convert("the target's merging before own base exponents", RANGE, [ODD], POWERS)
    convert("of a zero too", DENOMINATOR, [HIGH], ROOTS, 0.0)
    convert("a zero has no base exponents to work out", None, [HIGH], [to(A, 1)], 0.0)
    over_13, over_5 = [to(B, 1, 65536)], [to(B, MOST, 2)]
    convert("the target over the common list", DENOMINATOR, [to(A, 1), to(B, 1, 65537)], over_13)
    convert("the target over the common list", RANGE, [to(A, 1), to(B, 1, 65536)], over_5)
    convert("own base exponents before the target over the common list", RANGE, [HIGH, to(B, 1, 65537)], over_13)
    convert("own base exponents before the target over the common list", DENOMINATOR, [ODD, to(B, 1, 65536)], over_5)
    convert("own base exponents over the common list", DENOMINATOR, over_13, [to(A, 1), to(B, 1, 65537)])
    convert("the target over the common list before its base exponents", DENOMINATOR, [to(B, 1, 65537)], over_13 + [HIGH])
    convert("the target over the common list before its base exponents", RANGE, [to(B, 1, 65536)], over_5 + [ODD])
    convert("the target's base exponents", RANGE, [to(A, 1)], [HIGH])
    convert("the target's base exponents", DENOMINATOR, [to(A, 1)], [ODD])
    convert("own base exponents before the target's", RANGE, [HIGH], [ODD])
    convert("own base exponents before the target's", DENOMINATOR, [ODD], [HIGH])
    convert("then UNITS", UNITS, [to(A, 1)], [to(B, 1)])


def reading_14():
    """The own list is the second quantity's; a sum has its first list first."""
    for code in (COMPARE, EQUAL):
        ask("the first's roots, the second's powers", RANGE, code, (1.0, ROOTS), (1.0, POWERS))
        ask("the first's powers, the second's roots", DENOMINATOR, code, (1.0, POWERS), (1.0, ROOTS))
        ask("base exponents of the second, then of the first", DENOMINATOR, code, (1.0, [HIGH]), (1.0, [ODD]))
    ask("the first's roots, the second's powers", DENOMINATOR, ADD, (1.0, ROOTS), (1.0, POWERS))
    ask("the first's powers, the second's roots", RANGE, ADD, (1.0, POWERS), (1.0, ROOTS))
    ask("base exponents of the first, then of the second", RANGE, ADD, (1.0, [HIGH]), (1.0, [ODD]))
    ask("the second's merging before the first's base exponents", DENOMINATOR, ADD, (1.0, [HIGH]), (1.0, ROOTS))
    own, other = [to(A, 1), to(B, 1, 65537)], [to(B, 1, 65536)]
    ask("in the second's conversion", DENOMINATOR, ADD, (1.0, own), (1.0, other))


def reading_15():
    """Neither half is UNITS: equality and simplification answer it at once."""
    ask("roots against another unit", DENOMINATOR, EQUAL, (1.0, [to(B, 1)]), (1.0, ROOTS))
    ask("powers against another unit", RANGE, EQUAL, (1.0, [to(B, 1)]), (1.0, POWERS))
    ask("another unit", None, EQUAL, (1.0, [to(B, 1)]), (1.0, [to(A, 1)]))
    back = to(Q, -1, MOST)
    ask("roots that cancel in the canonical form", DENOMINATOR, SIMPLIFY, (5.0, [ODD, back, to(B, 1)]))
    ask("powers that cancel in the canonical form", RANGE, SIMPLIFY, (5.0, [HIGH, to(X, -MOST), to(B, 1)]))
    ask("roots that do not merge", DENOMINATOR, SIMPLIFY, (5.0, [*ROOTS, to(B, 1)]))
    ask("roots that do not merge, of a zero", DENOMINATOR, SIMPLIFY, (0.0, ROOTS))


def main(word="", folder=None):
    for part in (reading_9, reading_10, reading_11, reading_12, reading_13, reading_14, reading_15):
        part()
    if word == "write":
        pathlib.Path(folder, "edges-halves.bin").write_bytes(b"".join(asked + answer for _, asked, answer in records))
    for at, (label, asked, out) in enumerate(records if word == "list" else []):
        print(f"halves {at}: call {asked[0]}: {label}: {told(out)}")


if __name__ == "__main__":
    main(*sys.argv[1:])
