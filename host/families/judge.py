#!/usr/bin/env python3
"""Conversions by both rules against exact fractions: reads what main.rs prints, writes the tables.

Exact is the value times the own unit over the target's, where a row is its binary64 factor as it is times its definition, and a
prefix ten to its power. The right answer is the binary64 number nearest to that. Distances are in last places: how many binary64
numbers on. Ends with 1 if a conversion of a family is refused, if the old rule answers one between roots, or if the rules differ
where nothing is in common and the own list is canonical as it is spelled."""
import re
import struct
import sys
from collections import Counter
from fractions import Fraction

PREFIXES = {"mega": 6, "kilo": 3, "deci": -1, "centi": -2, "milli": -3, "micro": -6}
ROOTS = "roots"
CANONICAL = "nothing in common, own list in canonical order"
KINDS = "a factor in common", "nothing in common, own list in another order", CANONICAL
COLUMNS = (
    "conversions | differ | most apart | old right | new right | old nearer | new nearer | equally near | old off by at most"
    " | new off by at most"
)
LEGEND = (
    "Right: the binary64 number nearest to the exact answer. Nearer and equally near: to that number, among the answers that"
    " differ. Apart and off: in last places."
)


def unit(text, rows):
    """Exponents by row and prefix."""
    merged = Counter()
    for sign, name, power in re.findall(r"([·/]?)([a-z]+)(?:\^([0-9.]+))?", text):
        word = "" if name in rows else next(word for word in PREFIXES if name.startswith(word))
        factor = name.removeprefix(word), PREFIXES.get(word, 0)
        merged[factor] += Fraction(power or 1) * (-1 if sign == "/" else 1)
    return merged


def size(merged, rows):
    """None where a root is left of what isn't 1."""
    product = Fraction(1)
    for (name, prefix), exponent in merged.items():
        scale = Fraction(10) ** prefix * rows[name]
        if scale != 1 and exponent.denominator > 1:
            return None
        product *= scale**exponent.numerator
    return product


def nearest(value, ratio):
    """Bits of the binary64 number nearest to a product: Python's quotient of whole numbers is rounded once."""
    over, under = value.as_integer_ratio()
    return struct.unpack(">Q", struct.pack(">d", over * ratio.numerator / (under * ratio.denominator)))[0]


class Counts:
    def __init__(self):
        self.all = self.differ = self.apart = 0
        self.right, self.nearer, self.off = [0, 0], [0, 0], [0, 0]

    def judge(self, right, old, new):
        """Bits of numbers above zero, which stand in the order of the numbers."""
        off = abs(old - right), abs(new - right)
        self.all += 1
        self.differ += old != new
        self.apart = max(self.apart, abs(old - new))
        for rule in 0, 1:
            self.right[rule] += off[rule] == 0
            self.nearer[rule] += off[rule] < off[1 - rule]
            self.off[rule] = max(self.off[rule], off[rule])

    def add(self, other):
        self.all += other.all
        self.differ += other.differ
        self.apart = max(self.apart, other.apart)
        for rule in 0, 1:
            self.right[rule] += other.right[rule]
            self.nearer[rule] += other.nearer[rule]
            self.off[rule] = max(self.off[rule], other.off[rule])

    def cells(self):
        equally = self.differ - sum(self.nearer)
        return [self.all, self.differ, self.apart, *self.right, *self.nearer, equally, *self.off]


class Direction:
    """The conversions from one unit to another: answered by both rules, by the new one alone, refused by each."""

    def __init__(self, family, own, target, form, rows):
        self.family, self.own, self.target = family, own, target
        a, b = unit(own, rows), unit(target, rows)
        self.ratio = size({factor: a[factor] - b[factor] for factor in a.keys() | b.keys()}, rows)
        common = any(exponent * b[factor] > 0 for factor, exponent in a.items())
        self.kind = KINDS[0] if common else KINDS[2 if form == "canonical" else 1]
        self.both, self.alone, self.refused = Counts(), Counts(), (Counter(), Counter())

    def take(self, value, *answers):
        for refused, answer in zip(self.refused, answers):
            if answer.isupper():
                refused[answer] += 1
        if answers[1].isupper():
            return
        right = nearest(struct.unpack(">d", bytes.fromhex(value))[0], self.ratio)
        new = int(answers[1], 16)
        if answers[0].isupper():
            self.alone.judge(right, new, new)
        else:
            self.both.judge(right, int(answers[0], 16), new)

    def fault(self):
        if self.family != ROOTS:
            return any(self.refused) or (self.kind == CANONICAL and self.both.differ > 0)
        return self.both.all > 0 or any(set(refused) - {"FRACTION"} for refused in self.refused)


def read(lines):
    """The table as text, and every direction with what came of it."""
    rows, table, directions, family = {}, [], [], ""
    for words in map(str.split, lines):
        match words:
            case ["row", name]:
                rows[name] = Fraction(1)
                table.append(name)
            case ["row", name, factor, definition]:
                rows[name] = Fraction(float(factor)) * size(unit(definition, rows), rows)
                table.append(f"{name} = {factor} {definition}")
            case ["family", *name]:
                family = " ".join(name)
            case ["pair", own, target, form]:
                directions.append(Direction(family, own, target, form, rows))
            case _:
                directions[-1].take(*words)
    return table, directions


def whole(all_counts):
    joined = Counts()
    for counts in all_counts:
        joined.add(counts)
    return joined


def both(directions):
    return whole(each.both for each in directions).cells()


def line(*cells):
    print("|", " | ".join(f"{cell:,}" if isinstance(cell, int) else cell for cell in cells), "|")


def head(text):
    print(f"\n| {text} |\n|{'---|' * (text.count('|') + 1)}")


def families(directions):
    """By family, by what is in common, and from unit to unit where the rules differ. The two ways of a pair stand together."""
    names = list(dict.fromkeys(each.family for each in directions))
    of = {name: [each for each in directions if each.family == name] for name in names}
    for name in names:
        print(f"- {name}: {'; '.join(f'{each.own} – {each.target}' for each in of[name][::2])}")
    head(f"family | pairs | {COLUMNS}")
    for name in names:
        line(name, len(of[name]) // 2, *both(of[name]))
    line("all", len(directions) // 2, *both(directions))
    head(f"conversions with | from unit to unit | {COLUMNS}")
    for kind in KINDS:
        same = [each for each in directions if each.kind == kind]
        line(kind, len(same), *both(same))
    differing = [each for each in directions if each.both.differ]
    head(f"from | to | {COLUMNS}")
    for each in differing:
        line(each.own, each.target, *each.both.cells())
    print(f"\nThe rules differ in {len(differing)} of {len(directions)} conversions from unit to unit.")


def roots(directions):
    head("roots, both ways | conversions | old: FRACTION | new: FRACTION | new answers | right | off by at most")
    pairs = [(f"{there.own} – {there.target}", [there, back]) for there, back in zip(directions[::2], directions[1::2])]
    for said, same in [*pairs, ("all", directions)]:
        old, new = (sum(each.refused[rule]["FRACTION"] for each in same) for rule in (0, 1))
        counts = whole(each.alone for each in same)
        line(said, counts.all + new, old, new, counts.all, counts.right[1], counts.off[1])


def main():
    table, directions = read(sys.stdin)
    print(f"The table: {'; '.join(table)}.\n\n{LEGEND}\n")
    families([each for each in directions if each.family != ROOTS])
    roots([each for each in directions if each.family == ROOTS])
    faults = [each for each in directions if each.fault()]
    for each in faults:
        print(f"NOT AS IT HAS TO BE: {each.own} to {each.target}, refused {each.refused}", file=sys.stderr)
    sys.exit(1 if faults or not directions else 0)


main()
