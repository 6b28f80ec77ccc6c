#!/usr/bin/env python3
"""Requests at the limits of 01's rules, each with its answer worked out here, by Python's own fractions and floats.

  edges.py write FOLDER   edges-limits.bin (exponents, powers, prefixes, lists) and edges-admissions.bin (tables)
  edges.py list           every record in words, with its answer

A file is a run of records as in the stored list: a request as in the stream, directly followed by its answer.
"""
import math
import pathlib
import struct
import sys
from fractions import Fraction

MOST = 2147483647
TABLE, SHAPE, UNKNOWN, ROOM, RANGE, FRACTION, DENOMINATOR = 1, 2, 3, 4, 5, 7, 13
METRIC, BINARY = 0, 1
NAN = 0x7FF8000000000000


class Refused(Exception):
    pass


# ---- bytes: a factor is (row, kind, n, num, den)

BLANK = (0, METRIC, 0, 0, 1)


def words(*numbers):
    return struct.pack(f"<{len(numbers)}I", *numbers)


def places(n, factors, filler=BLANK):
    return b"".join(struct.pack("<IIiiI", *f) for f in (list(factors) + [filler] * n)[:n])


def unit(length, factor=BLANK):
    """A list of one factor so many times, which also stands in every place past the length."""
    return words(length) + places(16, [], factor)


def unit_of(*factors):
    return words(len(factors)) + places(16, factors)


def quantity(bits, mark):
    return struct.pack("<QI", bits, mark) + unit_of()


def request(code, *arguments):
    return words(code) + b"".join(words(len(a)) + a for a in arguments)


def refused(number):
    return words(number, 0)


def given(answer):
    return words(0, len(answer)) + answer


def bits(x):
    return NAN if math.isnan(x) else struct.unpack("<Q", struct.pack("<d", x))[0]


def of_bits(n):
    return struct.unpack("<d", struct.pack("<Q", n))[0]


def value(x):
    return struct.pack("<Q", bits(x))


# ---- 01's rules on numbers


def power(base, n):
    r, a, m = 1.0, base, abs(n)
    while m:
        if m & 1:
            r *= a
        m >>= 1
        if m:
            a *= a
    return divided(1.0, r) if n < 0 else r


def divided(x, y):
    """As binary64 has it: by a zero too."""
    if y:
        return x / y
    return math.copysign(math.inf, x) * math.copysign(1.0, y) if x and not math.isnan(x) else math.nan


def ranged(x):
    """The numerator decides if both leave their range."""
    if abs(x.numerator) > MOST:
        raise Refused(RANGE)
    if x.denominator > MOST:
        raise Refused(DENOMINATOR)
    return x


def sound(num, den):
    return abs(num) <= MOST and 1 <= den <= MOST and math.gcd(num, den) == 1


def shaped(kind, n):
    if kind not in (METRIC, BINARY) or abs(n) > 1100:
        raise Refused(SHAPE)


def exponent(num, den):
    if not sound(num, den):
        raise Refused(SHAPE)
    return Fraction(num, den)


# ---- tables: a row is (rank, factor or None for a base row, definition), and a kind that is none if one is given


def base_exponents(definition, rows, ranks):
    out = {}
    for rank in ranks:
        s = Fraction(0)
        for row, _, _, num, den in definition:
            s = ranged(s + ranged(Fraction(num, den) * rows[row]["exponents"].get(rank, Fraction(0))))
        out[rank] = s
    return {rank: s for rank, s in out.items() if s}


def key_multiple(exponents):
    m = 1
    for rank in sorted(exponents):
        m = math.lcm(m, exponents[rank].denominator)
        if m > MOST:
            raise Refused(DENOMINATOR)


def scale(definition, rows):
    s = 1.0
    for row, kind, n, num, den in definition:
        size = power(2.0 if kind else 10.0, n) * rows[row]["scale"]
        if den != 1 and size != 1.0:
            raise Refused(FRACTION)
        s *= power(size, num) if den == 1 else 1.0
    return s


def admitted_row(rows, row):
    rank, factor, definition, *kind = row
    base = factor is None
    if kind or any(r["rank"] == rank for r in rows) or len(definition) > 8:
        raise Refused(TABLE)
    if base and (definition or sum(r["base"] for r in rows) == 16):
        raise Refused(TABLE)
    if not base and not 0.0 < factor < math.inf or any(f[0] >= len(rows) for f in definition):
        raise Refused(TABLE)
    for _, prefix, n, num, den in definition:
        shaped(prefix, n)
        exponent(num, den)
    ranks = sorted(r["rank"] for r in rows if r["base"])
    exponents = {rank: Fraction(1)} if base else base_exponents(definition, rows, ranks)
    key_multiple(exponents)
    size = 1.0 if base else factor * scale(definition, rows)
    return {"rank": rank, "base": base, "exponents": exponents, "scale": size}


def admit(table):
    """The refusal, 0 for none, and the number of rows before the fault."""
    rows = []
    if len(table) > 128:
        return TABLE, 0
    try:
        for row in table:
            rows.append(admitted_row(rows, row))
    except Refused as refusal:
        return refusal.args[0], len(rows)
    return 0, len(rows)


def row_bytes(row):
    """A base row's factor is never read, nor is a place past the end."""
    rank, factor, definition, *kind = row
    head = struct.pack("<HHI", rank, *(kind or [0 if factor is None else 1]), len(definition))
    number = struct.pack("<Q", 0xFFF7_0000_0000_0001 if factor is None else bits(factor))
    return head + number + places(8, definition, (0, METRIC, 0, 1, 1))


def table_bytes(table):
    return b"".join(map(row_bytes, table))


def table(n, b):
    """The first b rows base, the rest defined by row 0; ranks fall."""
    return [(1000 - i, None, []) if i < b else (1000 - i, 2.0, [f(0)]) for i in range(n)]


def f(row, n=0, num=1, den=1, kind=METRIC):
    return (row, kind, n, num, den)


# ---- the calls, as far as the records below go: lists over one base row, or of one factor (n, factor) n times


def fields(x):
    return (x.numerator, x.denominator)


def alone(x):
    """A list of row 0 to an exponent; none for zero."""
    return unit_of(f(0, 0, *fields(x))) if x else unit_of()


def multiple(a, b):
    """Of exponents of one base row, unlike."""
    return struct.pack("<IiI", 1, *fields(ranged(a / b))) if b else struct.pack("<IiI", 0, 0, 1)


def prefix_factor(kind, n):
    shaped(kind, n)
    return value(power(2.0 if kind else 10.0, n))


def checked(rows, n, factor):
    if n > 16 or n and not (abs(factor[2]) <= 1100 and factor[1] in (METRIC, BINARY) and sound(*factor[3:])):
        raise Refused(SHAPE)
    if n and factor[0] >= rows:
        raise Refused(UNKNOWN)


def joined(rows, a, b, turn):
    checked(rows, *a)
    checked(rows, *b)
    if a[0] + b[0] > 16:
        raise Refused(ROOM)
    (n, x), (m, y) = a, b
    return unit_of(*[x] * n, *[(*y[:3], turn * y[3], y[4])] * m)


def raised(rows, a, e):
    n, x = a
    checked(rows, n, x)
    e = exponent(*e)
    return unit_of(*[(*x[:3], *fields(ranged(Fraction(*x[3:]) * e))) for _ in range(n)])


# ---- records: a label, a request, its answer

records = {"limits": [], "admissions": []}


def put(file, label, code, arguments, answer):
    try:
        told = answer()
    except Refused as refusal:
        told = refusal.args[0]
    out = refused(told) if isinstance(told, int) else given(told)
    records[file].append((label, request(code, *arguments), out))


def limit(*record):
    put("limits", *record)


def exponent_limits():
    """Sums by merging, products by powers, quotients by multiples, negatives by quotients of lists; one base row."""
    rows, top, bottom, small = table_bytes(table(1, 1)), (MOST, 1), (-MOST, 1), (1, 65536)
    sums = [((MOST - 1, 1), (1, 1)), (top, (1, 1)), ((1 - MOST, 1), (-1, 1)), (bottom, (-1, 1))]
    for a, b in sums + [(small, (1, 32767)), (small, (1, 65537)), ((1, 6), (-1, 6))]:
        lists = unit_of(f(0, 0, *a), f(0, 0, *b))
        limit(f"sum of {a} and {b}", 5, [rows, lists], lambda: alone(ranged(Fraction(*a) + Fraction(*b))))
    products = [((65536, 1), (32767, 1)), ((65536, 1), (32768, 1)), ((-65536, 1), (32768, 1))]
    for a, b in products + [(small, (-1, 32767)), (small, (1, 32768)), ((MOST, 2), (2, MOST))]:
        arguments = [rows, alone(Fraction(*a)), struct.pack("<iI", *b)]
        limit(f"product of {a} and {b}", 4, arguments, lambda: alone(ranged(Fraction(*a) * Fraction(*b))))
    for a, b in [((6, 1), (-4, 1)), ((1, 1), (0, 1)), ((1, 1), (1, MOST)), ((2, 1), (1, MOST))]:
        arguments = [rows, unit_of(f(0, 0, *a)), unit_of(f(0, 0, *b))]
        limit(f"quotient of {a} and {b}", 20, arguments, lambda: multiple(Fraction(*a), Fraction(*b)))
    for a in [top, bottom, (-MOST - 1, 1)]:
        limit(f"negative of {a}", 3, [rows, unit_of(), unit_of(f(0, 0, *a))], lambda: alone(-exponent(*a)))
    for a, b in [(65536, 32767), (65536, 32768), (65536, 65537)]:
        both = table(2, 2) + [pair(1, f(0, 0, 1, a), f(1, 0, 1, b))]
        answer = lambda: admit(both)[0] or unit_of()
        limit(f"common multiple of {a} and {b}", 5, [table_bytes(both), unit_of()], answer)
    for e in [(0, 1), (0, 2), (2, 4), (1, 0), (-MOST - 1, 1), bottom, (-MOST, MOST - 1), (1, MOST), (1, MOST + 1)]:
        limit(f"rule of {e}", 4, [b"", unit_of(), struct.pack("<iI", *e)], lambda: raised(0, (0, BLANK), e))


def float_limits():
    """Powers of a row's scale and of a value; bit patterns through `no_simplify` and `abs`."""
    near = of_bits(0x3FF000001AD7F29B)
    for n in (MOST, -MOST):
        arguments = [table_bytes([(0, near, [])]), unit_of(f(0, 0, n))]
        limit(f"power of a scale near 1 to {n}", 7, arguments, lambda: value(power(near, n)) + unit_of())
    arguments = [b"", quantity(0xFFFF000000000001, 1), quantity(0, 1)]
    limit("NaN to 0", 14, arguments, lambda: quantity(bits(power(math.nan, 0)), 1))
    for n in [0x7FF0000000000000, 0x7FF0000000000001, 0xFFFFFFFFFFFFFFFF]:
        limit(f"bits {n:016x}", 23, [b"", quantity(n, 1)], lambda: quantity(bits(of_bits(n)), 0))
    for n in [0x8000000000000000, 0x8000000000000001, 0xFFF0000000000001]:
        limit(f"abs {n:016x}", 16, [b"", quantity(n, 0)], lambda: quantity(bits(abs(of_bits(n))), 1))


def prefix_limits():
    for kind in (METRIC, BINARY):
        for n in [-MOST - 1, -1101, -1100, -24, -3, -1, 0, 1, 3, 10, 1100, 1101, MOST]:
            limit(f"prefix {n} of kind {kind}", 1, [struct.pack("<Ii", kind, n)], lambda: prefix_factor(kind, n))
    for kind in (2, 2**32 - 1):
        for n in (-1101, 0, 1):
            limit(f"prefix {n} of kind {kind}", 1, [struct.pack("<Ii", kind, n)], lambda: prefix_factor(kind, n))


def list_limits():
    """Lists of one factor so many times, checked by the power 1 and by the calls themselves."""
    x, y = f(5, 3, 2, 3), f(4, 3, -MOST, 2, BINARY)
    checks = [(6, 16, x), (6, 17, x), (6, 2**32 - 1, x), (128, 1, f(127, 1100)), (128, 1, f(128)), (0, 0, x), (0, 1, x)]
    wrong = f(5, 1101), f(5, -1101, kind=BINARY), f(5, kind=2), f(5, 0, 2, 4), f(6, 0, 2, 4), f(2**32 - 1)
    for rows, n, w in checks + [(6, 2, w) for w in wrong]:
        arguments = [table_bytes(table(rows, min(rows, 16))), unit(n, w), struct.pack("<iI", 1, 1)]
        limit(f"{n} times {w} over {rows} rows", 4, arguments, lambda: raised(rows, (n, w), (1, 1)))
    for rows, n, m in [(6, 8, 8), (6, 8, 9), (6, 16, 0), (6, 3, 0), (5, 1, 17), (6, 1, 17)]:
        arguments = [table_bytes(table(rows, rows)), unit(n, x), unit(m, x)]
        limit(f"product of {n} and {m} factors over {rows} rows", 2, arguments, lambda: joined(rows, (n, x), (m, x), 1))
    for n, m in [(8, 8), (9, 8), (0, 16)]:
        arguments = [table_bytes(table(6, 6)), unit(n, x), unit(m, y)]
        limit(f"quotient of {n} and {m} factors", 3, arguments, lambda: joined(6, (n, x), (m, y), -1))
    powers = [(6, 9, x, (3, 2)), (6, 9, x, (0, 1)), (6, 9, y, (2, 1)), (6, 9, y, (3, 1)), (6, 9, y, (2, 2))]
    for rows, n, w, e in powers + [(4, 9, y, (2, 2)), (0, 0, y, (MOST, 1)), (6, 1, y, (2, MOST)), (6, 1, y, (1, MOST))]:
        arguments = [table_bytes(table(rows, rows)), unit(n, w), struct.pack("<iI", *e)]
        limit(f"{n} times {w} over {rows} rows to {e}", 4, arguments, lambda: raised(rows, (n, w), e))


def admission(label, t):
    """The table, then it cut behind the faulty row and before it: the fault is that row's and no other's."""
    refusal, before = admit(t)
    cuts = [("", t)]
    if refusal and len(t) <= 128:
        cuts += [(f", the first {n} rows", t[:n]) for n in (before + 1, before) if n < len(t)]
    for cut, rows in cuts:
        arguments = [table_bytes(rows), unit_of()]
        if all(r != request(5, *arguments) for _, r, _ in records["admissions"]):
            put("admissions", label + cut, 5, arguments, lambda: admit(rows)[0] or unit_of())


def one(row):
    return table(4, 3)[:3] + [row]


def two(row, last):
    return one(row) + [last]


def derived(rank, factor, definition, n=1):
    return (rank, factor, [definition] * n)


def pair(rank, a, b):
    return (rank, 1.0, [a, b])


def sizes():
    admission("no rows", [])
    admission("128 rows", table(128, 16))
    admission("129 rows", table(129, 16))
    admission("129 rows, the first with SHAPE", [derived(1, 1.0, f(0, 1101))] + table(128, 1))
    admission("16 base rows", table(16, 16))
    admission("17 base rows", table(17, 17))
    admission("row 126 named by row 127", table(127, 1) + [derived(7, 1.0, f(126))])
    admission("row 127 named by itself", table(127, 1) + [derived(7, 1.0, f(127))])
    admission("8 factors", one(derived(1, 1.0, f(0), 8)))
    admission("9 factors", one(derived(1, 1.0, f(0), 9)))
    admission("a row named that is not there", one(derived(1, 1.0, f(4294967295))))


def kinds():
    admission("rank met before", one(derived(999, 1.0, f(0))))
    for name, factor in [("0", 0.0), ("-1", -1.0), ("NaN", math.nan), ("infinity", math.inf), ("subnormal", 5e-324)]:
        admission(f"factor {name}", one(derived(1, factor, f(0))))
    admission("base row with a definition", one((1, None, [f(0)])))
    admission("no factors", one((1, 3.0, [])))
    admission("row kind 2", one((1, 3.0, [], 2)))
    admission("row kind 65535", one((1, 3.0, [], 65535)))


def shapes():
    for n in (1100, -1100, 1101, -1101):
        admission(f"prefix {n}", one(derived(1, 1.0, f(0, n))))
    admission("prefix kind 2", one(derived(1, 1.0, f(0, kind=2))))
    for name, e in [("2/4", (2, 4)), ("1/0", (1, 0)), ("-2147483648", (-MOST - 1, 1)), ("0/1", (0, 1))]:
        admission(f"exponent {name}", one(derived(1, 1.0, f(0, 0, *e))))


def ranges():
    top, root = f(0, 0, MOST), f(0, 3, 1, 2)
    admission("base exponent 2147483647", one(derived(1, 1.0, top)))
    admission("base exponent beyond", one(pair(1, top, f(0))))
    admission("and back again", one(pair(1, top, f(0, 0, -1))))
    admission("common multiple 2147418112", one(pair(1, f(0, 0, 1, 65536), f(1, 0, 1, 32767))))
    admission("common multiple beyond", one(pair(1, f(0, 0, 1, 65536), f(1, 0, 1, 65537))))
    admission("root of a scale 1", one(derived(2, 1.0, f(0, 0, 1, 2))))
    admission("root of a scale 1000", one(derived(1, 1.0, root)))
    admission("root of a row of scale 2", two(derived(2, 2.0, f(0)), derived(1, 1.0, f(3, 0, 1, 2))))
    admission("square of a row of scale 2", two(derived(2, 2.0, f(0)), derived(1, 1.0, f(3, 0, 2, 1))))


def orders():
    """In one row TABLE, SHAPE, RANGE or DENOMINATOR, FRACTION; of two rows the first decides."""
    top, root = f(0, 0, MOST), f(0, 3, 1, 2)
    admission("TABLE and SHAPE", one(derived(1, 0.0, f(0, 1101))))
    admission("own row named, and SHAPE", one(derived(1, 1.0, f(3, 1101))))
    admission("SHAPE and RANGE", one(pair(1, top, f(0, 1101))))
    admission("RANGE and FRACTION", one(pair(1, top, root)))
    admission("DENOMINATOR of the key and FRACTION", one(pair(1, f(0, 3, 1, 65536), f(1, 0, 1, 65537))))
    admission("FRACTION, then TABLE", two(derived(2, 1.0, root), derived(1, 0.0, root)))
    admission("SHAPE, then rank met", two(derived(2, 1.0, f(0, 1101)), (1000, None, [])))
    admission("RANGE before a 17th base row", table(16, 16) + [pair(1, top, f(0)), (2, None, [])])


def told(answer):
    number, length = struct.unpack_from("<II", answer)
    return f"refused {number}" if number else answer[8:].hex() if length <= 12 else f"{length} bytes"


def main(word="", folder=None):
    for part in (exponent_limits, float_limits, prefix_limits, list_limits, sizes, kinds, shapes, ranges, orders):
        part()
    for file, all_of_it in records.items():
        if word == "write":
            pathlib.Path(folder, f"edges-{file}.bin").write_bytes(b"".join(r + a for _, r, a in all_of_it))
        for at, (label, _, answer) in enumerate(all_of_it if word == "list" else []):
            print(f"{file} {at}: {label}: {told(answer)}")


if __name__ == "__main__":
    main(*sys.argv[1:])
