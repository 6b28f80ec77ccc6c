#!/usr/bin/env python3
"""01's bench list as the program's input, and what it must write: `./cases.py` writes stdin and stdout. src/main.rt has the columns and their letters.

The answers of STARRED and UNSTARRED are 01's own, those of OTHERS follow from its rules; all agree with the oracle's reading of 01."""
import pathlib
import struct

NAN = float("nan")


def q(value, unit, mark="m"):
    bits = "7ff8000000000000" if value != value else struct.pack(">d", value).hex()
    return f"{bits} {unit}{mark}"


GRAM, METRE, SECOND, BIT, MINUTE, HOUR, BYTE, NEWTON = (f"0{row}." for row in range(8))
KIBIBYTE, BINARY_METRE, PREFIX_1100, PREFIX_1101 = "06K", "01B", "01P", "01Q"
ROOT_NEWTON, ROOT_BASE, BASE, CUBIC_METRE, SCALAR = "07h", "00s", "00g", "01t", "00_"
TENTHS, PER_HOUR, KILO_PER_HOUR = "01D", "01v", "01V"
MINUTE_HOUR, SQUARE_MINUTE, KILO_BASE = "04w", "04d", "00G"
ROW_127, ROW_128 = "7f.", "80."
NONE = q(0.0, SCALAR, "u")
TABLE, SHAPE, UNKNOWN, ROOM, RANGE, UNITS, FRACTION, DIVZERO, ZERONEG, NONWHOLE, NAN_REFUSED = "123456789ab"
YES, NO, LESS, EQUAL, GREATER = "yq<=>"


def metres(n):
    return f"{n:02x}*"


def to(unit):
    return q(0.0, unit)


# name, call, quantities; a quantity, a refusal or a word
STARRED = [
    ("6 hour to minute", "c", q(6, HOUR), to(MINUTE), q(360, MINUTE)),
    ("1 Binary(10) byte to bit", "c", q(1, KIBIBYTE), to(BIT), q(8192, BIT)),
    ("5 metre to second", "c", q(5, METRE), to(SECOND), UNITS),
    ("0 metre to second", "c", q(0, METRE, "u"), to(SECOND), q(0, SECOND)),
    ("-0 metre to second", "c", q(-0.0, METRE), to(SECOND), q(-0.0, SECOND)),
    ("1 newton reduced", "r", q(1, NEWTON, "u"), NONE, q(1000, BASE)),
    ("4 newton^(1/2) to gram^(1/2) metre^(1/2) second^-1", "c", q(4, ROOT_NEWTON), to(ROOT_BASE), FRACTION),
    ("Metric(0) metre and Binary(0) metre: equal lists", "l", q(7, METRE), q(7, BINARY_METRE), NO),
    ("7 Metric(0) metre to Binary(0) metre", "c", q(7, METRE), to(BINARY_METRE), q(7, BINARY_METRE)),
    ("7 Binary(0) metre to Metric(0) metre", "c", q(7, BINARY_METRE), to(METRE), q(7, METRE)),
    ("0 second ordered with 5 metre", "o", q(0, SECOND), q(5, METRE), UNITS),
    ("5 metre ordered with 0 second", "o", q(5, METRE), q(0, SECOND), GREATER),
    ("0 metre + 5 unmarked second", "+", q(0, METRE), q(5, SECOND, "u"), q(5, SECOND, "u")),
    ("0 metre - 5 unmarked second", "-", q(0, METRE), q(5, SECOND, "u"), q(-5, SECOND)),
    ("0 metre to -1", "^", q(0, METRE), q(-1, SCALAR), ZERONEG),
]
UNSTARRED = [
    ("1 hour + 30 minute", "+", q(1, HOUR), q(30, MINUTE), q(90, MINUTE)),
    ("2 minute hour simplified", "f", q(2, MINUTE_HOUR), NONE, q(120, SQUARE_MINUTE)),
    ("16 factors", "n", q(5, metres(16)), NONE, q(-5, metres(16))),
    ("17 factors", "n", q(5, metres(17)), NONE, SHAPE),
    ("8 factors times 8", "*", q(2, metres(8)), q(3, metres(8)), q(6, metres(16))),
    ("8 factors times 9", "*", q(2, metres(8)), q(3, metres(9)), ROOM),
    ("Prefix 1100", "n", q(5, PREFIX_1100), NONE, q(-5, PREFIX_1100)),
    ("Prefix 1101", "n", q(5, PREFIX_1101), NONE, SHAPE),
    ("Row 127 of 128", "N", q(5, ROW_127), NONE, q(-5, ROW_127)),
    ("Row 128 of 128", "N", q(5, ROW_128), NONE, UNKNOWN),
    ("A 129th row", "M", q(5, METRE), NONE, TABLE),
]
OTHERS = [
    ("1 decimetre decimetre decimetre^-1 to metre", "c", q(1, TENTHS), to(METRE), q(0.1 * 0.1 * (1 / 0.1), METRE)),
    ("3 kilometre/hour to metre/hour", "c", q(3, KILO_PER_HOUR), to(PER_HOUR), q(3 * (1000 * (1 / 3600) * 3600), PER_HOUR)),
    ("3 metre/hour to kilometre/hour", "c", q(3, PER_HOUR), to(KILO_PER_HOUR), q(3 * (1 / 3600 * 3600) / 1000, KILO_PER_HOUR)),
    ("30 minute + 1 hour", "+", q(30, MINUTE), q(1, HOUR), q(90, MINUTE)),
    ("1 hour - 30 minute", "-", q(1, HOUR), q(30, MINUTE), q(30, MINUTE)),
    ("5 metre + 5 second", "+", q(5, METRE), q(5, SECOND), UNITS),
    ("5 unmarked metre + 0 second", "+", q(5, METRE, "u"), q(0, SECOND), q(5, METRE, "u")),
    ("6 metre divided by 2", "/", q(6, METRE, "u"), q(2, SCALAR), q(3, METRE)),
    ("6 metre divided by -0 second", "/", q(6, METRE), q(-0.0, SECOND), DIVZERO),
    ("2 metre to 3", "^", q(2, METRE), q(3, SCALAR), q(8, CUBIC_METRE)),
    ("2 metre to 1/2", "^", q(2, METRE), q(0.5, SCALAR), NONWHOLE),
    ("2 metre to 3e9", "^", q(2, METRE), q(3e9, SCALAR), RANGE),
    ("2 metre to 5 second", "^", q(2, METRE), q(5, SECOND), UNITS),
    ("1 minute ordered with 1 hour", "o", q(1, MINUTE), q(1, HOUR), LESS),
    ("60 minute ordered with 1 hour", "o", q(60, MINUTE), q(1, HOUR), EQUAL),
    ("5 metre ordered with a NaN second", "o", q(5, METRE), q(NAN, SECOND), NAN_REFUSED),
    ("60 minute equal to 1 hour", "e", q(60, MINUTE), q(1, HOUR), YES),
    ("5 metre equal to 5 second", "e", q(5, METRE), q(5, SECOND), NO),
    ("5 metre equal to a NaN metre", "e", q(5, METRE), q(NAN, METRE), NO),
    ("5 unmarked metre negated", "n", q(5, METRE, "u"), NONE, q(-5, METRE)),
    ("abs of -5 unmarked metre", "a", q(-5, METRE, "u"), NONE, q(5, METRE)),
    ("no_simplify of 5 metre", "x", q(5, METRE), NONE, q(5, METRE, "u")),
    ("2 unmarked minute hour simplified", "f", q(2, MINUTE_HOUR, "u"), NONE, q(2, MINUTE_HOUR, "u")),
    ("3 metre per hour simplified", "f", q(3, PER_HOUR), NONE, q(3, PER_HOUR)),
    ("5 kilogram metre second^-2, candidate newton", "F", q(5, KILO_BASE), to(NEWTON), q(5, NEWTON)),
    ("5 kilogram metre second^-2, candidate metre", "F", q(5, KILO_BASE), to(METRE), q(5, KILO_BASE)),
    ("2 newton reduced", "r", q(2, NEWTON, "u"), NONE, q(2000, BASE)),
]


def line(name, call, a, b, answer):
    code, quantity = (answer, NONE) if len(answer) == 1 else ("0", answer)
    return f"{name:<52}{call} {a} {b} {code} {quantity}"


lines = [line(*case) for case in STARRED + UNSTARRED + OTHERS]
assert all(len(text) == 121 for text in lines)
here = pathlib.Path(__file__).resolve().parent
(here / "stdin").write_text("".join(text + "\n" for text in lines))
(here / "stdout").write_text("".join(text + " ok\n" for text in lines) + f"{len(lines)} cases, 0 differ\n")
