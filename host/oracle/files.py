#!/usr/bin/env python3
"""Table files (02, order 1) with what writing, reading and salvaging them answers, worked out here from 02's sentences.

  files.py write FOLDER   named-files.bin (the worked cases of 02's readings, every kind of damage) and
                          edges-files.bin (tables and files at their limits)
  files.py list           every record in words, with its answer

Admission is that of edges.py. A record has the form of the stored list. The worked cases have the answers that 02's
readings say, and the program ends with an error if its own reader says otherwise.
"""
import math
import pathlib
import struct
import sys

from edges import BINARY, DENOMINATOR, MOST, TABLE, admit, bits, f, given, of_bits, places, refused, request
from edges import table as ranked
from edges import table_bytes, words

ROOM, SHAPE, RANGE, FRACTION, FORMAT = 4, 2, 5, 7, 12
WRITE, READ, SALVAGE = 24, 25, 26
TOP = 2**32 - 1


# ---- the file: a row is (rank, factor or None for a base row, definition), a factor (row, kind, n, num, den)


class Fault(Exception):
    pass


def number(n):
    return bytes([n]) if n < 128 else bytes([n % 128 + 128]) + number(n // 128)


def folded(n):
    return n * 2 if n >= 0 else n * -2 - 1


def row_file(row):
    rank, factor, definition = row
    if factor is None:
        return number(rank) + number(0)
    parts = [v for r, kind, n, num, den in definition for v in (r, kind, folded(n), folded(num), den)]
    return b"".join([number(rank), number(1), struct.pack("<Q", bits(factor)), *map(number, [len(definition), *parts])])


def file_of(rows):
    return number(len(rows)) + b"".join(map(row_file, rows))


class Taken:
    """A file read from its beginning; what breaks a rule is a Fault."""

    def __init__(self, file):
        self.file, self.at = file, 0

    def bytes(self, n):
        if self.at + n > len(self.file):
            raise Fault
        self.at += n
        return self.file[self.at - n : self.at]

    def number(self, most=TOP):
        groups = [*self.bytes(1)]
        while groups[-1] >= 128:
            groups += self.bytes(1)
        value = sum(group % 128 << 7 * place for place, group in enumerate(groups))
        if value > most or number(value) != bytes(groups):
            raise Fault
        return value

    def signed(self):
        n = self.number()
        return -(n // 2) - 1 if n & 1 else n // 2

    def factor(self):
        return self.number(), self.number(1), self.signed(), self.signed(), self.number()

    def row(self):
        rank, kind = self.number(65535), self.number(1)
        if kind == 0:
            return rank, None, []
        factor = of_bits(struct.unpack("<Q", self.bytes(8))[0])
        return rank, factor, [self.factor() for _ in range(self.number(8))]


# ---- the calls: an answer's bytes, or the number of a refusal


def clean(rows):
    """Rows as they come back."""
    out = b""
    for rank, factor, definition in rows:
        head = struct.pack("<HHI", rank, int(factor is not None), len(definition))
        out += head + struct.pack("<Q", 0 if factor is None else bits(factor)) + places(8, definition)
    return out


def write(rows, room):
    file = file_of(rows) if admit(rows)[0] == 0 else b""
    return admit(rows)[0] or (words(len(file), 0) + file if len(file) <= room else ROOM)


def read(file, lent):
    taken = Taken(file)
    try:
        rows = [taken.row() for _ in range(taken.number(lent))]
    except Fault:
        return FORMAT
    return FORMAT if taken.at < len(file) else admit(rows)[0] or words(len(rows), 0) + clean(rows)


def salvage(file, lent):
    taken, rows, ends = Taken(file), [], [0]
    try:
        count = taken.number()
        ends = [taken.at]
        while len(rows) < min(count, lent, 128):
            rows.append(taken.row())
            ends.append(taken.at)
    except Fault:
        pass
    kept = admit(rows)[1]
    return words(kept, ends[kept]) + clean(rows[:kept])


# ---- records: a label, a request, its answer

records = {"named-files": [], "edges-files": []}
into = "named-files"


def put(label, code, arguments, answer, said=None):
    """`said` is what 02's readings say: the refusal, or the rows and the byte."""
    if said is not None:
        own = answer if isinstance(answer, int) else struct.unpack_from("<II", answer)
        assert own == said, (label, own, said)
    out = refused(answer) if isinstance(answer, int) else given(answer)
    records[into].append((label, request(code, *arguments), out))


def written(label, rows, room, said=None):
    put(f"{label}, written into {room} bytes", WRITE, [table_bytes(rows), words(room)], write(rows, room), said)


def reads(label, file, lent, said=None):
    put(f"{label}, read into {lent} places", READ, [file, words(lent)], read(file, lent), said)


def salvaged(label, file, lent, said=None):
    put(f"{label}, salvaged into {lent} places", SALVAGE, [file, words(lent)], salvage(file, lent), said)


def both(label, file, lent, refusal=None):
    reads(label, file, lent, refusal)
    salvaged(label, file, lent)


def of(text):
    return bytes.fromhex(text)


# ---- the worked cases


def reading_1():
    """A FORMAT fault anywhere beats all of admission."""
    zero = row_file((5, 0.0, []))
    reads("row 0 derived by factor 0, row 1 of kind 2", number(2) + zero + of("0602"), 2, FORMAT)
    reads("row 0 derived by factor 0, a byte behind", number(1) + zero + of("00"), 1, FORMAT)
    reads("row 0 derived by factor 0, nothing else", number(1) + zero, 1, TABLE)
    reads("129 rows and a byte behind", file_of(ranked(129, 1)) + of("00"), 129, FORMAT)


def reading_2():
    """Every rule of the file, each broken alone."""
    base, derived = "0000", "0101" + "000000000000f03f"
    one = "010000000201"
    cases = {
        "no byte": "",
        "count cut": "80",
        "rank missing": "01",
        "kind missing": "0100",
        "second row missing": "02" + base,
        "factor cut": "02" + base + "0101000000000000f0",
        "length missing": "02" + base + derived,
        "definition missing": "02" + base + derived + "01",
        "denominator missing": "02" + base + derived + one[:10],
        "a byte behind": "01" + base + "00",
        "a byte behind no row": "0055",
        "count 80 00": "8000",
        "count 81 00": "8100" + base,
        "rank 80 00": "01800000",
        "kind 80 00": "01008000",
        "kind 81 00": "01008100",
        "rank ff ff ff ff 1f": "01ffffffff1f00",
        "rank ff ff ff ff 0f": "01ffffffff0f00",
        "rank 80 80 80 80 80 00": "0180808080800000",
        "rank 87 80 00": "0187800000",
        "rank 87 80 80 80 00": "01878080800000",
        "rank 80 80 80 80 10": "01808080801000",
        "rank of 12 groups": "01" + "80" * 11 + "0000",
        "count ff ff ff ff 0f": "ffffffff0f" + base,
        "rank 65536": "0180800400",
        "kind 2": "010002",
        "kind 127": "01007f",
        "length 9": "01" + derived + "09",
        "prefix kind 2": "02" + base + derived + "010002000201",
        "row number 80 00": "02" + base + derived + "01800000000201",
        "row number of six groups": "02" + base + derived + "01" + "808080808000" + "00000201",
        "n 80 00": "02" + base + derived + "01000080000201",
        "numerator 82 00": "02" + base + derived + "01000000820001",
        "denominator 81 00": "02" + base + derived + "01000000028100",
        "denominator ff ff ff ff 1f": "02" + base + derived + "0100000002ffffffff1f",
        "length 80 00": "01" + derived + "8000",
    }
    for label, text in cases.items():
        both(label, of(text), 4, FORMAT)
    both("9 factors, all there", file_of([(9, None, []), (1, 2.0, [f(0)] * 9)]), 2, FORMAT)
    both("8 factors", file_of([(9, None, []), (1, 2.0, [f(0)] * 8)]), 2)
    both("count above the lent rows", of("020000" + "0100"), 1, FORMAT)
    both("as many rows as are lent", of("020000" + "0100"), 2)
    both("rank 65535", of("01ffff0300"), 1)
    both("no place for no row", of("00"), 0)


def reading_3():
    """All else is admission's."""
    base, top = (9, None, []), f(0, 0, MOST)

    def row(label, refusal, *factors, factor=2.0):
        both(label, file_of([base, (1, factor, [*factors])]), 2, refusal)

    for name, factor in [("NaN", math.nan), ("infinity", math.inf), ("0", 0.0), ("-0", -0.0), ("-1", -1.0)]:
        row(f"factor {name}", TABLE, f(0), factor=factor)
    signalling = file_of([base, (1, 2.0, [])])[:-9] + struct.pack("<Q", 0xFFF7000000000001) + number(0)
    both("factor of NaN's other bits", signalling, 2, TABLE)
    row("its own row", TABLE, f(1))
    row("row 4294967295", TABLE, f(TOP))
    row("n = 1101", SHAPE, f(0, 1101))
    row("n = -1101, binary", SHAPE, f(0, -1101, kind=BINARY))
    row("n = -2147483648", SHAPE, f(0, -MOST - 1))
    row("denominator 0", SHAPE, f(0, 0, 1, 0))
    row("2/4", SHAPE, f(0, 0, 2, 4))
    row("0/2", SHAPE, f(0, 0, 0, 2))
    row("folded numerator 4294967295", SHAPE, f(0, 0, -MOST - 1))
    row("denominator 2147483648", SHAPE, f(0, 0, 1, MOST + 1))
    row("denominator 4294967295", SHAPE, f(0, 0, 1, TOP))
    row("RANGE", RANGE, top, f(0))
    row("DENOMINATOR", DENOMINATOR, f(0, 0, 1, 65536), f(0, 0, 1, 65537))
    both("DENOMINATOR of the key", file_of(keyed()), 3, DENOMINATOR)
    row("FRACTION", FRACTION, f(0, 3, 1, 2))
    row("TABLE before SHAPE", TABLE, f(1, 1101))
    row("all at their limits", None, f(0, 1100, MOST - 1), f(0, -1100, -MOST, MOST - 1, BINARY), factor=5e-324)
    both("a rank again", file_of([base, base]), 2, TABLE)
    both("a 17th base row", file_of(ranked(17, 17)), 17, TABLE)


def keyed():
    """A row whose denominators have a common multiple beyond the range."""
    return ranked(2, 2) + [(1, 2.0, [f(0, 0, 1, 65536), f(1, 0, 1, 65537)])]


def reading_4():
    reads("129 rows of good form", file_of(ranked(129, 1)), 129, TABLE)
    reads("129 rows of good form", file_of(ranked(129, 1)), 128, FORMAT)


def reading_5():
    """Admission's refusals, then ROOM."""
    twice, rows = [(7, None, [])] * 2, small()
    written("a rank again", twice, 0, TABLE)
    written("a rank again", twice, 100, TABLE)
    written("a common multiple beyond the range", keyed(), 0, DENOMINATOR)
    for room in (0, 1, len(file_of(rows)) - 1):
        written("four rows", rows, room, ROOM)
    for room in (len(file_of(rows)), len(file_of(rows)) + 1, TOP):
        written("four rows", rows, room)
    written("no rows", [], 0, ROOM)
    written("no rows", [], 1, (1, 0))
    one, cut = table_bytes(rows), table_bytes(rows)[:-1]
    put("four rows, a byte short, written into 100 bytes", WRITE, [cut, words(100)], TABLE)
    put("row kind 2, written into 100 bytes", WRITE, [one[:2] + of("0200") + one[4:], words(100)], TABLE)
    for lent in (b"", of("ff00"), of("ffffff"), of("ff00000000")):
        put(f"four rows, the room in {len(lent)} bytes", WRITE, [one, lent], ROOM)
        put(f"one row, the places in {len(lent)} bytes", READ, [of("010000"), lent], FORMAT)
        put(f"no row, the places in {len(lent)} bytes", READ, [of("00"), lent], words(0, 0))
        put(f"one row, the places in {len(lent)} bytes", SALVAGE, [of("010000"), lent], words(0, 1))


def reading_6():
    """Unread places and a base row's factor aren't in the file; here all of them are zero, above they aren't."""
    rows = small()
    put("four rows with clean places", WRITE, [clean(rows), words(100)], write(rows, 100))
    zeros = b"".join(clean([row])[: 16 + 20 * len(row[2])].ljust(176, b"\0") for row in rows)
    put("four rows with zeros in their places", WRITE, [zeros, words(100)], write(rows, 100))
    both("four rows", file_of(rows), 4)
    both("four rows", file_of(rows), 200)


def reading_7():
    for text in ("", "80", "81000000"):
        for lent in (0, 2):
            salvaged(f"'{text}'", of(text), lent, (0, 0))
    for text in ("00", "0055"):
        for lent in (0, 2):
            salvaged(f"'{text}'", of(text), lent, (0, 1))
    salvaged("'01800000'", of("01800000"), 1, (0, 1))
    for text in ("020000", "02000001", "0200000000"):
        salvaged(f"'{text}'", of(text), 2, (1, 3))
    salvaged("'0200000100'", of("0200000100"), 1, (1, 3))
    salvaged("'0200000100'", of("0200000100"), 0, (0, 1))
    salvaged("'01000007'", of("01000007"), 1, (1, 3))
    rows = [(i, None if i < 16 else 1.0, []) for i in range(200)]
    start = len(number(200) + b"".join(map(row_file, rows[:128])))
    salvaged("200 admissible rows", file_of(rows), 200, (128, start))


# ---- every kind of damage


def small():
    """Metre, second, inch and a speed under prefixes of both kinds; ranks of one, two and three bytes."""
    speed = (300, 0.5, [f(2, 3), f(1, -3, -1, 1, BINARY)])
    return [(7, None, []), (65535, None, []), (5, 0.0254, [f(0)]), speed]


def damages():
    file = file_of(small())
    for at in range(len(file)):
        salvaged(f"four rows cut at byte {at}", file[:at], 4)
    for at in range(0, len(file), 3):
        reads(f"four rows cut at byte {at}", file[:at], 4, FORMAT)
    for at in range(len(file)):
        flipped = file[:at] + bytes([file[at] ^ 1 << at % 8]) + file[at + 1 :]
        both(f"four rows, bit {at % 8} of byte {at} flipped", flipped, 4)
    for at in range(0, len(file), 4):
        both(f"four rows, byte {at} removed", file[:at] + file[at + 1 :], 4)
        both(f"four rows, byte {at} doubled", file[:at] + file[at : at + 1] + file[at:], 4)
    both("four rows, a row behind", file + of("0900"), 4, FORMAT)
    both("four rows, all twice", file + file, 4, FORMAT)
    both("four rows, the count 3", number(3) + file[1:], 4, FORMAT)
    both("four rows, the count 5", number(5) + file[1:], 5, FORMAT)
    both("four rows, the count 4294967295", number(TOP) + file[1:], TOP, FORMAT)


# ---- at the limits


def longest():
    """15,890 bytes: every number as long as admission lets it be.

    A root takes a scale of exactly 1, so Binary(64) stands before rows of 2^-64.
    """
    root = f(0, 64, -MOST, MOST - 1, BINARY)
    return [(65535 - i, 2.0**-64, [root] * (8 if i else 0)) for i in range(128)]


def limits():
    many, long = file_of(ranked(129, 16)), longest()
    assert admit(long)[0] == 0 and len(file_of(long)) == 15890
    written("the longest file", long, 15890)
    reads("the longest file", file_of(long), 128)
    broken = bytearray(file_of(long))
    broken[len(number(128) + b"".join(map(row_file, long[:64]))) + 3] = 2
    salvaged("the longest file, row 64 of kind 2", bytes(broken), 128)
    reads("128 rows", file_of(ranked(128, 16)), 127, FORMAT)
    reads("129 rows", many, 129, TABLE)
    salvaged("129 rows", many, 129)
    reads("300 rows", file_of([(i, 1.0, []) for i in range(300)]), 300, TABLE)
    reads("5,000 bytes of 0", bytes(5000), 128, FORMAT)


def told(code, answer):
    number, length = struct.unpack_from("<II", answer)
    first, second = struct.unpack_from("<II", answer, 8) if number == 0 else (0, 0)
    if number:
        return f"refused {number}"
    return [f"{first} bytes", f"{first} rows", f"{first} rows kept, byte {second}"][code - WRITE]


def main(word="", folder=None):
    global into
    for part in (reading_1, reading_2, reading_3, reading_4, reading_5, reading_6, reading_7, damages):
        part()
    into = "edges-files"
    limits()
    for file, all_of_it in records.items():
        if word == "write":
            pathlib.Path(folder, f"{file}.bin").write_bytes(b"".join(asked + answer for _, asked, answer in all_of_it))
        for at, (label, asked, answer) in enumerate(all_of_it if word == "list" else []):
            print(f"{file} {at}: {label}: {told(asked[0], answer)}")


if __name__ == "__main__":
    main(*sys.argv[1:])
