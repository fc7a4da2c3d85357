#!/usr/bin/env python3
"""Gives the payloads of decode's recorded input to cbor2, a CBOR reader of other authors, and compares with what `decode` answers:
- accepted, or refused for what the map holds: cbor2 reads one whole item; accepted: each parameter has the value that cbor2 finds;
- CUT: cbor2 runs out of bytes; EXTRA: it reads an item and leaves bytes.
The other refusals of the scan (FORM, DEEP) are the papers' limits, which cbor2 does not have."""
import collections
import io
import os
import re
import subprocess
import sys

ROOT = os.path.dirname(os.path.dirname(os.path.abspath(__file__)))
DECODE = os.path.join(ROOT, "target", "bin", "decode")
RECORDED = os.path.join(ROOT, "crates", "decode", "stdin")
SYSTEM_PYTHON = "/usr/bin/python3"  # a distribution's packages are its own interpreter's

try:
    import cbor2
except ImportError:
    if os.path.exists(SYSTEM_PYTHON) and "CBOR2_TRIED" not in os.environ:
        os.execve(SYSTEM_PYTHON, [SYSTEM_PYTHON, os.path.abspath(__file__)], {**os.environ, "CBOR2_TRIED": "1"})
    print("cbor2 (python3-cbor2) is not installed")
    sys.exit(77)
try:
    from cbor2 import _decoder as reader  # the reader in Python; cbor2 5.5 renamed it
except ImportError:
    from cbor2 import decoder as reader

# A tag is a tag: no dates or big numbers are made of tagged items, which our scan passes over. A simple value is its number: cbor2 5.6
# refuses 24 to 31 after RFC 8949, RFC 7049 does not.
reader.semantic_decoders.clear()
reader.CBORSimpleValue = lambda number: ("simple", number)

KNOWN = {
    "request": {1: "role", 5: "network"},
    "configuration": {2: "keys", 3: "address", 4: "jrc", 5: "network", 6: "prefix"},
    "new-request": {1: "role", 5: "network", 8: "unsupported"},
    "new-configuration": {2: "keys", 3: "address", 4: "jrc", 6: "blacklist", 7: "rate"},
}
WHOLE = ("accepted", "TYPE", "TWICE", "KEYS", "ROLE", "OWED")
BAD = ("discarded", "malformed")


def payloads():
    """Each reading with each of its payloads, once."""
    found = {}
    with open(RECORDED, encoding="utf-8", errors="replace") as f:
        for line in f:
            name, _, digits = line.strip().partition(" ")
            name, digits = name.removeprefix("strict-"), digits.replace(" ", "")
            if name in KNOWN and len(digits) <= 512 and re.fullmatch(r"([0-9a-fA-F]{2})*", digits):
                found[name, bytes.fromhex(digits)] = None
    return list(found)


def answers(cases):
    lines = "".join("%s %s\n" % (name, payload.hex()) for name, payload in cases)
    return subprocess.run([DECODE], input=lines, capture_output=True, text=True, check=True).stdout.splitlines()


def read(payload):
    """What cbor2 finds: "one" item, "left" bytes after it, "cut", or another error; and the item."""
    stream = io.BytesIO(payload)
    try:
        value = reader.CBORDecoder(stream, str_errors="replace").decode()
    except reader.CBORDecodeEOF:  # that of the same reader: the one in C has its own
        return "cut", None
    except Exception as e:  # cbor2 also lets errors of Python through
        return ("cut" if "invalid length" in str(e) else type(e).__name__), None
    return ("one" if stream.tell() == len(payload) else "left"), value


def hexes(value):
    return "h'%s'" % value.hex()


def keys(items):
    """A key set in decode's notation."""
    rows, at = [], 0
    while at < len(items):
        identifier, usage, info, at = items[at], 0, "", at + 1
        if type(items[at]) is int:
            usage, at = items[at], at + 1
        value, at = items[at], at + 1
        if at < len(items) and isinstance(items[at], bytes):
            info, at = "/" + hexes(items[at]), at + 1
        rows.append("%d/%d/%s%s" % (identifier, usage, hexes(value), info))
    return "[%s]" % ",".join(rows)


NOTATION = {
    "role": str,
    "rate": str,
    "keys": keys,
    "network": hexes,
    "prefix": hexes,
    "jrc": hexes,
    "address": lambda items: hexes(items[0]),
    "blacklist": lambda items: "[%s]" % ",".join(map(hexes, items)),
    "unsupported": lambda items: "[%s]" % ",".join("%d/%d" % pair for pair in zip(items[::3], items[1::3])),
}


def pairs(payload):
    """How many pairs the head of a map announces."""
    info = payload[0] & 31
    return info if info < 24 else int.from_bytes(payload[1 : 1 + (1 << (info - 24))], "big")


def differences(name, answer, value, payload):
    """The parameters of an accepted payload that cbor2 sees otherwise."""
    fields = dict(re.findall(r"(\w+)=(\S+)", answer))
    reported = re.findall(r"\d+/(\d+)", fields.get("reports", ""))
    for label, field in KNOWN[name].items():
        shown = fields[field]
        if label not in value:
            expected = "0" if field == "role" else "absent"
        elif shown in BAD or str(label) in reported:
            continue
        else:
            expected = NOTATION[field](value[label])
        if shown != expected:
            yield field
    if fields.get("address", "").startswith("h'"):
        if fields["lease"] != (str(value[3][1]) if len(value[3]) > 1 else "none"):
            yield "lease"
    unknown = sum(label not in KNOWN[name] for label in value)
    if pairs(payload) == len(value) and fields["passed"] != str(unknown):  # a repeated unknown label counts each time
        yield "passed"


def fault(name, payload, answer, word, kind, value):
    if word in WHOLE and kind != "one":
        return "cbor2: " + kind
    if word == "accepted":
        return ", ".join(differences(name, answer, value, payload)) or None
    expected = {"CUT": "cut", "EXTRA": "left"}.get(word, kind)
    return None if kind == expected else "cbor2: " + kind


def main():
    if not os.path.exists(DECODE):
        sys.exit("target/bin/decode is not built")
    cases, count, faults = payloads(), collections.Counter(), []
    for (name, payload), answer in zip(cases, answers(cases), strict=True):
        word = answer.split()[0 if answer.startswith("accepted") else -1]
        kind, value = read(payload)
        count[word] += 1
        wrong = fault(name, payload, answer, word, kind, value)
        if wrong:
            faults.append("%s %s: %s: %s" % (name, payload.hex(), answer, wrong))
    for text in faults[:40]:
        print(text)
    print(", ".join("%s %d" % pair for pair in sorted(count.items())))
    print("%d payloads, %d differ" % (len(cases), len(faults)))
    sys.exit(0 if cases and not faults else 1)


main()
