#!/usr/bin/env python3
"""Writes the files that `replay` must find wrong, its arguments and what it is to print.

  make.py      beside data/call-NN.bin, data/edges-*.bin and data/named-*.bin

wrong.bin is the first records of a stored file with three answers spoiled; cut.bin is a stored file's first bytes.
How many records a file has is counted here, by the lengths in its bytes.
"""
import pathlib
import struct

HERE = pathlib.Path(__file__).parent
DATA = HERE / "data"
TWO = {5, 7, 8, 15, 16, 21, 23, 24, 25, 26}
STANDING = range(1, 24)


def arguments(code):
    return 1 if code == 1 else 2 if code in TWO else 3


def word(s, at):
    return struct.unpack_from("<I", s, at)[0]


def records(s):
    """The whole records of s, each as its request and its answer."""
    at = 0
    while at < len(s):
        end = at + 4
        for _ in range(arguments(word(s, at))):
            if end + 4 > len(s):
                return
            end += 4 + word(s, end)
        if end + 8 > len(s):
            return
        last = end + 8 + word(s, end + 4)
        if last > len(s):
            return
        yield s[at:end], s[end:last]
        at = last


def spoil(k, answer):
    """The wrong answer for record k: a bit of the answer, the refusal's number, an answer in place of a refusal's."""
    if k == 7 and len(answer) > 8:
        return answer[:-1] + bytes([answer[-1] ^ 1])
    if k == 11:
        return struct.pack("<I", word(answer, 0) + 1) + answer[4:]
    if k == 20:
        return answer + b"\0" if len(answer) == 8 else answer[:8]
    return answer


def framed(answer):
    """The answer with the length of what stands behind it."""
    return answer[:4] + struct.pack("<I", len(answer) - 8) + answer[8:]


def said(name, right, found, used):
    lines = [k for k, (a, b) in enumerate(zip(right, found)) if a != b]
    text = f"{name}: {len(found)} compared, {len(lines)} differ"
    if lines:
        text += f", first {lines[0]}"
    return text + ("" if used else ", then no record") + "\n"


def main():
    names = [f"call-{code:02}.bin" for code in STANDING]
    names += ["edges-admissions.bin", "edges-counted.bin", "edges-files.bin", "edges-halves.bin", "edges-knots.bin"]
    names += ["edges-limits.bin", "edges-merged.bin"]
    names += ["named-files.bin", "named-rules.bin", "named-simplifications.bin", "named-sixteenth.bin"]
    stored = {name: (DATA / name).read_bytes() for name in names}
    source = list(records(stored["call-18.bin"]))[:40]
    wrong = [(request, framed(spoil(k, answer))) for k, (request, answer) in enumerate(source)]
    (DATA / "wrong.bin").write_bytes(b"".join(a + b for a, b in wrong))
    cut = stored["call-18.bin"][:20000]
    (DATA / "cut.bin").write_bytes(cut)
    text = ""
    for name in names:
        found = list(records(stored[name]))
        whole = sum(len(a) + len(b) for a, b in found) == len(stored[name])
        text += said(name, found, found, whole)
    text += said("wrong.bin", source, wrong, True)
    found = list(records(cut))
    text += said("cut.bin", found, found, False)
    text += "missing.bin: cannot be opened\n"
    (HERE / "args").write_text("".join(name + "\n" for name in [*names, "wrong.bin", "cut.bin", "missing.bin"]))
    (HERE / "stdout").write_text(text)


main()
