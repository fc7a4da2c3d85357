#!/usr/bin/env python3
"""Writes the object of each payload of decode's `rewrite` lines into exactly the room that it takes and into one byte less, which must be
refused and leave the destination, and reads what was written. The expected payloads are decode's expected output, which
tools/decode_rewrites.py and other implementations made. Prints `N passed, M failed`, each payload counted once.

    rooms.py LIBRARY"""
import os
import sys

sys.path.insert(0, os.path.dirname(os.path.abspath(__file__)))
from pothatch import Library, Refused, number  # noqa: E402
from streams import CRATES, DecodePlayer, answered, octets, words_of  # noqa: E402

FILLER = 0xEE


def rewrites():
    """READING, payload and expected payload of each line `rewrite READING HEX` that is not refused."""
    for line, answer in answered(os.path.join(CRATES, "decode", "stdin"), os.path.join(CRATES, "decode", "stdout")):
        words = words_of(line)
        if words[0] == "rewrite" and answer.startswith("wrote "):
            yield words[1], octets("".join(words[2:])), bytes.fromhex(answer.removeprefix("wrote h'").removesuffix("'"))


def attempt(write, room):
    """What a write into so many bytes is answered, a length or a refusal's name, and the bytes afterwards."""
    dst = bytearray([FILLER] * room)
    try:
        return write(dst), bytes(dst)
    except Refused as refusal:
        return refusal.name, bytes(dst)


def difference(library, reading, payload, expected):
    """What is not as it must be; None if nothing."""
    what, version, strict = DecodePlayer(library).reading(reading)

    def read(source):
        return getattr(library, what + "_read")(version, strict, source)

    def write_of(item):
        return lambda dst: getattr(library, what + "_write")(version, item, dst)

    first, size = read(payload), len(expected)
    if attempt(write_of(first), size) != (size, expected):
        return "exact room"
    if attempt(write_of(first), size - 1) != ("ROOM", bytes([FILLER] * (size - 1))):
        return "one byte less"
    again = read(expected)
    if number(again.passed) != 0 or attempt(write_of(again), size) != (size, expected):
        return "read again"
    return None


def main():
    library, passed, failed = Library(sys.argv[1]), 0, 0
    for case in dict.fromkeys(rewrites()):
        found = difference(library, *case)
        passed, failed = passed + (found is None), failed + (found is not None)
        if found and failed < 4:
            print("differs: %s: %s %s" % (found, case[0], case[1].hex()))
    print("%d passed, %d failed" % (passed, failed))
    sys.exit(0 if passed and not failed else 1)


main()
