#!/usr/bin/env python3
"""Streams that end badly, and what the byte form says of each.

  endings.py make FOLDER REQUESTS CODES SEED COUNT   writes COUNT streams, made from the good requests of a file
  endings.py feed FILE                               writes a stream to a pipe in small pieces, each when all is read
  endings.py check FOLDER CODES                      what `calls` and 01's reading answered to each, and the counts

CODES are the codes that stand, with commas. A stream NAME.requests has its answers in NAME.calls and NAME.reading, and the
status with which `calls` ended in NAME.status. `check` reads every stream by the byte form, on its own: as many answers as
there are whole requests, then the one number exactly if the stream cannot be read on. It ends with 1 if `calls` or the
reading answers otherwise, and writes the names to the file `failed`.
"""
import fcntl
import os
import pathlib
import random
import select
import struct
import sys
import termios
import time
from collections import Counter

LIMIT = 65536
KNOTS_LIMIT = 262144
END = b"\xff\xff\xff\xff"
TWO = {5, 7, 8, 15, 16, 21, 23, 24, 25, 26}
ANSWERS = {1: 8, 6: 4, 7: 332, 17: 4, 18: 4, 20: 12, 29: 8, 30: 344, 31: 344} | dict.fromkeys([2, 3, 4, 5, 19], 324)
QUANTITY = 336
# Answers of a length of their own, by what stands behind their head: bytes, rows, distinct values.
HEADED = {24: 1, 25: 176, 26: 176, 28: 16}
KNOTS = {28, 29}
LAST = 31
REFUSALS = range(1, 17)


def arguments(code):
    """How many arguments a request has, the table among them."""
    return 1 if code == 1 else 2 if code in TWO else 3


def limit(code, place):
    """The most bytes of an argument by its place; knots are the second."""
    return KNOTS_LIMIT if code in KNOTS and place == 1 else LIMIT


def word(stream, at):
    return struct.unpack_from("<I", stream, at)[0] if at + 4 <= len(stream) else None


def words(*numbers):
    return struct.pack(f"<{len(numbers)}I", *numbers)


def whole(stream, at, codes):
    """Where the request that begins at a place ends; None if it cannot be read."""
    code = word(stream, at)
    if code not in codes:
        return None
    at += 4
    for place in range(arguments(code)):
        length = word(stream, at)
        if length is None or length > limit(code, place) or at + 4 + length > len(stream):
            return None
        at += 4 + length
    return at


def requests(stream, codes):
    """The requests before the end, and whether that is the stream's own end."""
    found, at = [], 0
    while at < len(stream):
        end = whole(stream, at, codes)
        if end is None:
            return found, False
        found.append(stream[at:end])
        at = end
    return found, True


# ---- making


def lengths_at(request):
    """Where the lengths of a request's arguments stand."""
    out, at = [], 4
    for _ in range(arguments(word(request, 0))):
        out.append(at)
        at += 4 + word(request, at)
    return out


def one_length(rng, good):
    """A request, where one of its lengths stands, and that argument's limit; one in three has knots, if any has."""
    with_knots = [request for request in good if word(request, 0) in KNOTS]
    request = rng.choice(with_knots if with_knots and rng.random() < 0.33 else good)
    place, at = rng.choice(list(enumerate(lengths_at(request))))
    return request, at, limit(word(request, 0), place)


def cut(rng, good, codes):
    """A request cut short: anywhere, inside its code or beside a length."""
    request = rng.choice(good)
    near = [at + by for at in lengths_at(request) for by in (0, 1, 3, 4, 5)] + [1, 2, 3, 4, len(request) - 1]
    at = rng.choice(near) if rng.random() < 0.4 else rng.randrange(1, len(request))
    return request[: min(at, len(request) - 1)]


def too_long(rng, good, codes):
    """A length over the limit: with nothing behind it, the bytes as they were, or as many as it says."""
    request, at, most = one_length(rng, good)
    near, far = [most + 1, most + 1, most + 2, most + 176], [2**31 - 1, 2**31, 2**32 - 4, 2**32 - 1]
    length = rng.choice(near + far + [2 * most, rng.randrange(most + 1, 2**32)])
    behind = rng.choice([b"", request[at + 4 :], bytes(length) if length < 2 * most else request[at + 4 :]])
    return request[:at] + words(length) + behind + after(rng, good)


def longest(rng, good, codes):
    """An argument of exactly the limit is answered; what comes behind it may be cut."""
    request, at, most = one_length(rng, good)
    rest = request[at + 4 + word(request, at) :]
    stream = request[:at] + words(most) + rng.randbytes(most) + rest
    return rng.choice([stream, stream + after(rng, good), stream[: -rng.randrange(1, 400)]])


def unknown(rng, good, codes):
    """A code that is not known, also one that its low bits would make a known one, over arguments that would fit."""
    absent = [code for code in range(1, LAST + 1) if code not in codes]
    high = [255, 256, 256 + 5, 65536 + 2, 2**31, 2**31 + 9, 2**32 - 1, rng.randrange(LAST + 1, 2**32)]
    code = rng.choice([0, LAST + 1, LAST + 2] + high + 3 * absent)
    fits = [request for request in good if arguments(word(request, 0)) == arguments(code)]
    return words(code) + rng.choice([rng.choice(fits)[4:], b"", b"\x00"]) + after(rng, good)


def noise(rng, good, codes):
    return rng.randbytes(rng.choice([1, 3, 4, 5, 8, rng.randrange(1, 3000)]))


def small_words(rng, good, codes):
    """Small words, most of them whole multiples of four: codes and short lengths, so that requests come about."""
    many = rng.randrange(1, 300)
    small = [rng.randrange(LAST + 2) if rng.random() < 0.1 else 4 * rng.randrange(6) for _ in range(many)]
    return words(rng.choice([2, 4, 8, 20]), *small)


def nothing(rng, good, codes):
    return b""


def after(rng, good):
    """Good requests behind the bad place: they have no answer."""
    return b"".join(rng.choice(good) for _ in range(rng.choice([0, 1, 3])))


KINDS = {"cut": cut, "length": too_long, "code": unknown, "words": small_words}
KINDS |= {"random": noise, "limit": longest, "whole": nothing}


def make(folder, file, codes, seed, count):
    rng = random.Random(int(seed))
    good, _ = requests(pathlib.Path(file).read_bytes(), codes)
    names = [*KINDS, "cut", "length", "code", "words"]
    for at in range(int(count)):
        kind = names[at % len(names)]
        before = b"".join(rng.choice(good) for _ in range(rng.choice([0, 0, 1, 2, 5])))
        (folder / f"{at:05}-{kind}.requests").write_bytes(before + KINDS[kind](rng, good, codes))


# ---- feeding


def unread(pipe):
    return struct.unpack("i", fcntl.ioctl(pipe, termios.FIONREAD, bytes(4)))[0]


def feed(file):
    """So that the reader meets the end of what there is at every sort of place. It may end before the stream does."""
    stream = file.read_bytes()
    rng = random.Random(len(stream))
    reader = select.poll()
    reader.register(1, 0)
    while stream and not reader.poll(0):
        if unread(1):
            time.sleep(0.0001)
            continue
        size = rng.choice([1, 2, 3, 4, 61, 700, 5000])
        try:
            os.write(1, stream[:size])
        except BrokenPipeError:
            return
        stream = stream[size:]


# ---- checking


def right_length(code, stream, at):
    """Of the answer that begins at a place; one with a head says by its first number how much is behind it."""
    if code not in HEADED:
        return ANSWERS.get(code, QUANTITY)
    return 8 + (word(stream, at) or 0) * HEADED[code]


def answers(stream, found):
    """What stands behind one answer for each request; None if one is missing or is none."""
    at = 0
    for request in found:
        code, number, length = word(request, 0), word(stream, at), word(stream, at + 4)
        right = length == right_length(code, stream, at + 8) if number == 0 else number in REFUSALS and length == 0
        if not right or at + 8 + length > len(stream):
            return None
        at += 8 + length
    return stream[at:]


def fault(folder, name, found, clean):
    """What is wrong with the answers to a stream; None if nothing."""
    status = int((folder / f"{name}.status").read_text())
    calls, reading = ((folder / f"{name}.{by}").read_bytes() for by in ("calls", "reading"))
    right = b"" if clean else END
    end = "end" if clean else "end with the one number"
    if answers(reading, found) != right:
        return f"01's reading does not give {len(found)} answers and {end}"
    if status != 0:
        return f"calls ended with status {status}"
    if answers(calls, found) != right:
        return f"calls does not give {len(found)} answers and {end}"
    return None if calls == reading else "calls answers a request before the end otherwise than 01's reading"


def check(folder, codes):
    streams, ended, given, failed = Counter(), Counter(), Counter(), []
    for file in sorted(folder.glob("*.requests")):
        name = file.name.removesuffix(".requests")
        kind = name.split("-")[1]
        stream = file.read_bytes()
        found, clean = requests(stream, codes)
        streams[kind] += 1
        ended[kind] += not clean
        given[kind] += len(found)
        wrong = fault(folder, name, found, clean)
        if wrong:
            failed.append(name)
        if wrong and len(failed) <= 10:
            rest = stream[sum(map(len, found)) :]
            print(f"stream {name}: {wrong}; behind them {len(rest)} bytes, {rest[:16].hex(' ', 4)}")
    print("| streams | number | ended by the one number | answers before |")
    print("|---|---|---|---|")
    for kind in streams:
        print(f"| {kind} | {streams[kind]} | {ended[kind]} | {given[kind]} |")
    every = sum(streams.values())
    print(f"of {every} streams: {every - len(failed)} as the byte form says, {len(failed)} otherwise")
    (folder / "failed").write_text("".join(f"{name}\n" for name in failed))
    return 1 if failed or not every else 0


def codes_of(text):
    return {int(code) for code in text.split(",")}


def main(word, path, *rest):
    path = pathlib.Path(path)
    if word == "make":
        file, codes, seed, count = rest
        return make(path, file, codes_of(codes), seed, count)
    return feed(path) if word == "feed" else check(path, codes_of(*rest))


if __name__ == "__main__":
    sys.exit(main(*sys.argv[1:]))
