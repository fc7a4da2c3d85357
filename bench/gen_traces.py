"""The traces of bench/replay.sh, written to the folder that its argument names: `million` and `quarter`, for each a file NAME.size with its records and its bytes, and `hex`, ten lines of replay's input with the first."""
import os
import sys


def number(n, size):
    return n.to_bytes(size, "big")


def delivery(kind, time, payload):
    return bytes([kind]) + number(time, 8) + number(len(payload), 2) + payload + bytes(256 - len(payload))


def join(time, identifier):
    """A unit joins, hears a frame under its new keys, takes an address, and polls."""
    keys = b"\xa1\x02\x82" + bytes([0x18, identifier]) + b"\x50" + bytes(range(16))
    address = b"\xa1\x03\x82\x42\x12\x34\x19\x0e\x10"
    return [
        b"\2" + number(time, 8) + number(10000, 4),
        b"\6" + number(time + 1000, 8),
        b"\6" + number(time + 10000, 8),
        delivery(3, time + 11000, keys),
        b"\5\1" + bytes([identifier]),
        b"\5\0" + bytes([identifier]),
        delivery(4, time + 12000, address),
        b"\6" + number(time + 13000, 8),
    ]


def records_within(most):
    records, size, time = [b"\1\0\2\xca\xfe" + bytes(14)], 19, 0
    while True:
        more = join(time, 32 + time // 20000 % 200)
        if size + sum(map(len, more)) > most:
            return records
        records, size, time = records + more, size + sum(map(len, more)), time + 20000


for name, most in (("million", 1000000), ("quarter", 250000)):
    records = records_within(most)
    trace = b"".join(records)
    with open(os.path.join(sys.argv[1], name), "wb") as f:
        f.write(trace)
    with open(os.path.join(sys.argv[1], name + ".size"), "w") as f:
        f.write("%d %d\n" % (len(records), len(trace)))
    if name == "million":
        with open(os.path.join(sys.argv[1], "hex"), "w") as f:
            f.write(("trace " + trace.hex() + "\n") * 10)
