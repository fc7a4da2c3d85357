#!/usr/bin/env python3
"""Adds to crates/decode/stdin and stdout lines at the edges of the tool's rules, after the vectors: lines far longer than any buffer, carriage
returns, bytes that are no text, payloads around the limit of 256 bytes, a last line with no end.

What they are answered follows from the rules of the desk tools, from document 01's examples, from the draft's and from docs/RFC9031.md, by the code below
alone.
"""
import random

from splice import splice

NONE = "keys=absent address=absent lease=absent jrc=absent network=absent prefix=absent"

# payloads whose answers document 01 gives, or that differ from one of those in a length alone
OBJECTS = [
    ("request", "A1 05 42 CA FE", "accepted role=0 network=h'cafe' passed=0"),
    ("request", "B8 01 05 42 CA FE", "accepted role=0 network=h'cafe' passed=0"),
    ("request", "A0", "refused 9 OWED"),
    ("request", "A1 01 01", "accepted role=1 network=absent passed=0"),
    ("request", "A1 01 02", "refused 8 ROLE"),
    ("request", "", "refused 1 CUT"),
    ("request", "A1 05 42 CA FE 00", "refused 4 EXTRA"),
    ("request", "BF 05 42 CA FE FF", "refused 2 FORM"),
    ("request", "A2 05 42 CA FE 05 42 CA FE", "refused 6 TWICE"),
    ("configuration", "A0", "accepted " + NONE + " passed=0"),
    (
        "configuration",
        "A1 03 82 42 12 34 19 0E 10",
        "accepted keys=absent address=h'1234' lease=3600 jrc=absent network=absent prefix=absent passed=0",
    ),
    (
        "configuration",
        "A1 03 81 41 12",
        "accepted keys=absent address=discarded lease=discarded jrc=absent network=absent prefix=absent passed=0",
    ),
    ("configuration", "A1 04 41 00", "accepted keys=absent address=absent lease=absent jrc=discarded network=absent prefix=absent passed=0"),
    ("configuration", "A1 02 80", "refused 7 KEYS"),
    ("configuration", "A1 02 81 01", "refused 5 TYPE"),
    (
        "configuration",
        "A1 02 82 01 50 00 01 02 03 04 05 06 07 08 09 0A 0B 0C 0D 0E 0F",
        "accepted keys=[1/0/h'000102030405060708090a0b0c0d0e0f'] address=absent lease=absent jrc=absent network=absent prefix=absent passed=0",
    ),
    # draft-ietf-6tisch-minimal-security-06, Appendix A
    (
        "configuration",
        "a202820150e6bf4287c2d7618d6a9687445ffd33e6038142af93",
        "accepted keys=[1/0/h'e6bf4287c2d7618d6a9687445ffd33e6'] address=h'af93' lease=none jrc=absent network=absent prefix=absent passed=0",
    ),
    ("configuration", "A1 18 63 F6", "accepted " + NONE + " passed=1"),
    ("configuration", "A1 18 63" + " 81" * 6 + " 00", "accepted " + NONE + " passed=1"),
    ("configuration", "A1 18 63" + " 81" * 7 + " 00", "refused 3 DEEP"),
]


def padded(size):
    """A configuration of so many bytes, 256 at most: an unknown label with a byte string."""
    return "A118635900%02X" % (size - 6) + "5A" * (size - 6)


LONG = "refused 15 LONG"

# a head, and what is stated of it: shortest at RFC 7049's limits, and one below; major type 7 is exempt
HEADS = [("", "refused 1 CUT"), ("18", "refused 1 CUT"), ("1C", "refused 2 FORM"), ("5F", "refused 2 FORM"), ("9E 00", "refused 2 FORM")]
for major in range(8):
    for info, size, least in ((24, 1, 24), (25, 2, 1 << 8), (26, 4, 1 << 16), (27, 8, 1 << 32)):
        for argument in (0, least - 1, least, (1 << 8 * size) - 1):
            shortest = "yes" if major == 7 or least <= argument else "no"
            digits = "%02X" % (major << 5 | info) + argument.to_bytes(size, "big").hex()
            HEADS.append((digits + "00", "head major=%d info=%d argument=%d next=%d shortest=%s" % (major, info, argument, 1 + size, shortest)))
    for info in (0, 23):
        HEADS.append(("%02X" % (major << 5 | info), "head major=%d info=%d argument=%d next=1 shortest=yes" % (major, info, info)))

# payloads, what they are answered, and what in a strict reading
CUT, FORM, LOOSE, CAFE = "refused 1 CUT", "refused 2 FORM", "refused 19 LOOSE", "accepted role=0 network=h'cafe' passed="
STRICT = [
    ("A1 05 42 CA FE", CAFE + "0", CAFE + "0"),
    ("B8 01 05 42 CA FE", CAFE + "0", LOOSE),
    ("A1 05 58 02", CUT, LOOSE),
    ("A1 05 58", CUT, CUT),
    ("A1 05 42 CA FE 18 05", "refused 4 EXTRA", "refused 4 EXTRA"),
    ("A1 18 63 18 05 00", "refused 4 EXTRA", LOOSE),
    ("A2 05 42 CA FE 18 63 81 18 05", CAFE + "1", LOOSE),
    ("A2 05 42 CA FE 18 63 81 18 18", CAFE + "1", CAFE + "1"),
    ("A2 05 42 CA FE 18 63 F8 05", CAFE + "1", CAFE + "1"),
    ("A2 05 42 CA FE 18 63 F9 00 00", CAFE + "1", CAFE + "1"),
    ("A2 05 42 CA FE 18 63 D8 05 00", CAFE + "1", LOOSE),
    ("A2 05 42 CA FE 18 63 C1 18 17", CAFE + "1", LOOSE),
    ("A2 1C 18 05", FORM, FORM),
    ("98 00", "refused 5 TYPE", LOOSE),
    ("9B 00 00 00 00 00 00 00 01", CUT, LOOSE),
    ("B8 01 05 42 CA FE" + "00" * 251, LONG, LONG),
]
for size in (255, 256):
    OBJECTS.append(("configuration", padded(size), "accepted " + NONE + " passed=1"))
for size in (257, 258, 300, 5000, 33000):
    OBJECTS.append(("configuration", "A0" + "00" * (size - 1), LONG))
    OBJECTS.append(("request", "FF" * size, LONG))


def spelled(r, digits):
    """The digits in another spelling: case by case, spaces anywhere among them."""
    out = ""
    spaced = r.choice([0, 0, 3, 40]) if len(digits) < 2000 else 0
    for d in digits.replace(" ", ""):
        if spaced and r.randrange(spaced) == 0:
            out += " " * r.randrange(1, 4)
        out += r.choice([d.lower(), d.upper()])
    return out


def lines(r):
    """Pairs: a line without its end, and its answer, or None."""
    for command, digits, answer in OBJECTS:
        for _ in range(4 if len(digits) < 2000 else 1):
            front = " " * r.choice([0, 0, 1, 7])
            gap = " " * r.choice([1, 1, 2, 30])
            back = r.choice(["", " ", "   ", "\r", "  \r"])
            yield (front + command + gap + spelled(r, digits) + back).encode(), answer
    hexes = "A10542CAFE"
    far = 1000000
    good = "accepted role=0 network=h'cafe' passed=0"
    yield b"request" + b" " * far + hexes.encode(), good
    yield b" " * 66000 + b"request A105" + b" " * 66000 + b"42CAFE" + b" " * 66000 + b"\r", good
    yield b" " * 66000, None
    yield b"#" * 66000, None
    yield b"request " + b"00" * 33000, LONG
    yield b"request " + b"00" * 33000 + b"0", "error hex"
    yield b"request " + b"00" * 33000 + b"x", "error hex"
    yield b"request x" + b"00" * 33000, "error hex"
    yield b"x" * 66000, "error command"
    yield b"request" + b"t" * 66000 + b" A0", "error command"
    # around the buffer's size, with the line's end and a carriage return on either side
    for size in range(65535, 65538):
        line = b"request A1 05 42 CA" + b" " * (size - 21) + b"FE"
        yield line, good
        yield line[:-1] + b"\r", "error hex"
        yield line + b"\r", good
    yield b"request A0\r\r", "error hex"
    yield b"request A0\r ", "error hex"
    yield b"request A0 \r", "refused 9 OWED"
    yield b"\r", None
    yield b"\r\r", "error command"
    yield b" \r", None
    yield b"\r ", "error command"
    yield b"request\r", "refused 1 CUT"
    yield b"request\0", "error command"
    yield b"request \0", "error hex"
    yield b"\0", "error command"
    yield b"\0request A0", "error command"
    yield b"request A\0000", "error hex"
    yield b"\xef\xbb\xbfrequest A0", "error command"
    yield b"\trequest A0", "error command"
    yield b"request\tA0", "error command"
    yield b"request \tA0", "error hex"
    yield b"Request A0", "error command"
    yield b"requests A0", "error command"
    yield b"reques A0", "error command"
    yield b"configurationA0", "error command"
    yield b"configuration", "refused 1 CUT"
    yield b"configuratio\xee A0", "error command"
    yield b"  # request A0", None
    yield b"request # A0", "error hex"
    yield b"request 0xA0", "error hex"
    yield b"request A0,", "error hex"
    for c in b"/:@G`g\x1f!\x7f\x80\xff-":
        yield b"request A" + bytes([c]), "error hex"
        yield b"request " + bytes([c]) + b"0", "error hex"
    # strict readings, heads, and objects written again: paper 02, request 3
    for digits, answer in HEADS:
        yield b"head " + digits.encode(), answer
    for digits, ordinary, strict in STRICT:
        yield b"request " + digits.encode(), ordinary
        yield b"strict-request " + digits.encode(), strict
    yield b"head" + b" " * 66000 + b"18" + b" " * 66000 + b"18" + b"00" * 66000, "head major=0 info=24 argument=24 next=2 shortest=yes"
    yield b"head 1x", "error hex"
    yield b"head 1", "error hex"
    yield b"heads 18 18", "error command"
    wrote = "wrote h'a10542cafe'"
    yield b"rewrite request B8 01 05 42 CA FE", wrote
    yield b"rewrite strict-request B8 01 05 42 CA FE", "refused 19 LOOSE"
    yield b"rewrite strict-request A1 05 42 CA FE", wrote
    yield b"rewrite" + b" " * 66000 + b"request" + b" " * 66000 + b"A105 42CAFE" + b" " * 66000 + b"\r", wrote
    yield b"rewrite request", "refused 1 CUT"
    yield b"rewrite request\r", "refused 1 CUT"
    yield b"rewrite request " + b"00" * 33000, LONG
    yield b"rewrite request " + b"00" * 33000 + b"0", "error hex"
    yield b"rewrite strict-configuration A2 18 63 F6 06 40", "wrote h'a10640'"
    yield b"rewrite configuration A2 18 03 82 58 02 12 34 00 18 63 F6", "wrote h'a1038242123400'"
    yield b"rewrite", "error command"
    yield b"rewrite A0", "error command"
    yield b"rewrite Request A0", "error command"
    yield b"rewrite head 18 18", "error command"
    yield b"rewrite rewrite request A0", "error command"
    yield b"rewrite request\tA0", "error command"
    yield b"rewrite " + b"request" * 9000 + b" A0", "error command"
    yield b"rewrites request A0", "error command"
    yield b"rewrite request request A0", "error hex"
    yield b"strict-configuration", "refused 1 CUT"
    yield b"strict-configurationA0", "error command"
    yield b"strict-configuratio A0", "error command"
    yield b"strict request A0", "error command"
    yield from merges()
    yield from parts()
    yield from published()
    # the last line has no end
    yield b"request A1 01 01\r", "accepted role=1 network=absent passed=0"


def merges():
    """Two configurations joined: paper 02, request 10. A `+` is a word of its own, wherever a buffer ends."""
    far = b" " * 66000
    one, other, both = b"A1 03 82 42 12 34 0A", b"A1 05 42 CA FE", "merged h'a203824212340a0542cafe'"
    yield b"merge " + one + b" + " + other, both
    yield b"merge" + far + one + far + b"+" + far + other + far + b"\r", both
    # the `+` before, at and after the end of a buffer
    for size in range(65520, 65550):
        yield b"merge " + one + b" " * (size - 20) + b"+ " + other, both
    yield b"merge A1 03 82 42 12 34 0A + A1 03 81 42 56 78", "merged h'a10381425678'"
    yield b"merge A1 03 82 42 12 34 0A + A1 03 81 42 FF FF", "merged h'a103824212340a'"
    yield b"merge A0 + A0", "merged h'a0'"
    yield b"merge A0+A0", "error command"
    yield b"merge A0 +A0", "error command"
    yield b"merge A0+ A0", "error command"
    yield b"merge A0 ++ A0", "error command"
    yield b"merge A0 A0", "error command"
    yield b"merge zz", "error command"
    yield b"merge", "error command"
    yield b"merge A0 + A0 + A0", "error hex"
    yield b"merge A0 + A0 +", "error hex"
    yield b"merge A0 + A0+", "error hex"
    yield b"merge A0+ + A0", "error hex"
    yield b"merge A + 0A0", "error hex"
    yield b"merge A0 + A", "error hex"
    yield b"merge x + A0", "error hex"
    yield b"merge A0 + x", "error hex"
    yield b"merge + A0", "first refused 1 CUT"
    yield b"merge +", "first refused 1 CUT"
    yield b"merge +\r", "first refused 1 CUT"
    yield b"merge A0 +", "second refused 1 CUT"
    yield b"merge A1 02 80 + A1 01", "first refused 7 KEYS"
    for size in (256, 257, 300, 513, 514, 515, 33000):
        whole = (padded(256) if size == 256 else "A0" + "00" * (size - 1)).encode()
        yield b"merge " + whole + b" + A0", "first " + LONG if 256 < size else "merged h'a0'"
        yield b"merge A0 + " + whole, "second " + LONG if 256 < size else "merged h'a0'"
        yield b"merge " + whole + b" + 0", "error hex"
    yield b"merge " + padded(256).encode() + b" + " + padded(256).encode(), "merged h'a0'"
    yield b"merges A0 + A0", "error command"
    yield b"configuration A0 + A0", "error hex"
    yield b"+", "error command"


def parts():
    """A payload that comes in parts: paper 02, request 12. The store's bytes from an earlier board are never seen."""
    cafe = "accepted role=0 network=h'cafe' passed=0"
    phase, out_of_range = "refused 16 PHASE", "refused 13 RANGE"
    reset = (b"reset", "reset")
    yield reset
    for cut in range(6):
        digits = bytes.fromhex("A10542CAFE")
        yield b"part " + digits[:cut].hex().encode(), "held %d" % cut
        yield b"part", "held %d" % cut
        yield b"part " + digits[cut:].hex().encode(), "held 5"
        yield b"end request", cafe
        yield b"part", phase
        yield b"end strict-request", phase
        yield reset
    # an end that is refused is an end; what arrived is no request
    yield b"part A0", "held 1"
    yield b"end request", "refused 9 OWED"
    yield b"end configuration", phase
    yield reset
    yield b"end configuration", CUT
    yield b"end configuration", phase
    yield reset
    # 256 and one more, also after an end; a part that does not fit leaves what arrived
    whole = padded(256).encode()
    yield b"part " + whole[:400], "held 200"
    yield b"part " + whole[400:], "held 256"
    yield b"part", "held 256"
    yield b"end configuration", "accepted " + NONE + " passed=1"
    yield b"part", phase
    yield b"part 00", LONG
    yield b"part", LONG
    yield b"end configuration", LONG
    yield reset
    yield b"part A0", "held 1"
    yield b"part " + b"FF" * 256, LONG
    yield b"part", LONG
    yield b"end request", LONG
    yield reset
    yield b"part " + b"FF" * 33000, LONG
    yield reset
    yield b"end configuration", CUT
    yield reset
    # a store that is too short is RANGE before all else; the arrival stays
    yield b"part A1 05 42", "held 3"
    yield b"store 255", "lent 255"
    yield b"part " + b"00" * 300, out_of_range
    yield b"end request", out_of_range
    yield b"reset", "reset"
    yield b"part", out_of_range
    yield b"store 512", "lent 512"
    yield b"part A1 05 42", "held 3"
    yield b"store 256", "lent 256"
    yield b"part CA FE", "held 5"
    yield b"end request", cafe
    yield b"store 0", "lent 0"
    yield b"part", out_of_range
    yield b"store 256", "lent 256"
    yield reset
    yield b"store 513", "error number"
    yield b"store 18446744073709551616", "error number"
    yield b"store x", "error number"
    yield b"store", "error command"
    yield b"store 1 2", "error command"
    yield b"store " + b"0" * 66000 + b"256", "lent 256"
    yield b"end", "error command"
    yield b"end request A0", "error command"
    yield b"end rewrite", "error command"
    yield b"ends request", "error command"
    yield b"reset 1", "error command"
    yield b"resets", "error command"
    yield b"part x", "error hex"
    yield b"part 0", "error hex"
    yield b"part A1" + b" " * 66000 + b"05 42CA FE" + b" " * 66000 + b"\r", "held 5"
    yield b"end" + b" " * 66000 + b"request" + b" " * 66000 + b"\r", cafe


def said(fields="", passed=0, reports=""):
    """What a configuration of the published form is answered: these parameters, the others absent."""
    named = dict(f.split("=", 1) for f in fields.split())
    names = ("keys", "address", "lease", "jrc", "blacklist", "rate")
    return "accepted %s passed=%d reports=[%s]" % (" ".join(n + "=" + named.get(n, "absent") for n in names), passed, reports)


# payloads of the published form and what a configuration of each says: paper 02, request 11
VALUE = "000102030405060708090a0b0c0d0e0f"
KEY = "01 50 " + VALUE
BAD_KEYS, BAD_ADDRESS = said("keys=malformed", 0, "1/2"), said("address=malformed lease=malformed", 0, "1/3")
CONFIGURATIONS = [
    ("A0", said()),
    ("A1 05 42 CA FE", said(passed=1)),
    ("A1 08 83 01 03 F6", said(passed=1)),
    ("A1 18 63 F6", said(passed=1)),
    ("A1 03 82 42 12 34 0A", said("address=h'1234' lease=10")),
    ("A1 03 81 42 12 34", said("address=h'1234' lease=none")),
    ("A1 03 82 42 FE FF 1B FF FF FF FF FF FF FF FF", said("address=h'feff' lease=18446744073709551615")),
    ("A1 03 81 42 FF FE", BAD_ADDRESS),
    ("A1 03 81 41 12", BAD_ADDRESS),
    ("A1 03 82 42 12 34 20", BAD_ADDRESS),
    ("A1 03 42 12 34", BAD_ADDRESS),
    ("A1 04 50 " + VALUE, said("jrc=h'%s'" % VALUE)),
    ("A1 04 4F " + VALUE[:30], said("jrc=malformed", 0, "1/4")),
    ("A1 02 82 " + KEY, said("keys=[1/0/h'%s']" % VALUE)),
    ("A1 02 83 " + KEY + "44 01020304", said("keys=[1/0/h'%s'/h'01020304']" % VALUE)),
    ("A1 02 83 " + KEY + "48 0102030405060708", said("keys=[1/0/h'%s'/h'0102030405060708']" % VALUE)),
    ("A1 02 86 " + KEY + "44 01020304 18 FF 0E 50" + VALUE, said("keys=[1/0/h'%s'/h'01020304',255/14/h'%s']" % (VALUE, VALUE))),
    ("A1 02 86 " + KEY + "44 01020304" + KEY + "44 01020305", BAD_KEYS),
    ("A1 02 83 " + KEY + "40", BAD_KEYS),
    ("A1 02 83 " + KEY + "45 0102030405", BAD_KEYS),
    ("A1 02 84 " + KEY + "44 01020304 44 01020304", BAD_KEYS),
    ("A1 02 80", BAD_KEYS),
    ("A1 02 82 00 50" + VALUE, BAD_KEYS),
    ("A1 02 81 01", BAD_KEYS),
    ("A1 06 80", said("blacklist=[]")),
    ("A1 06 98 02 40 58 01 AA", said("blacklist=[h'',h'aa']")),
    ("A1 06 98 FB" + "40" * 251, said("blacklist=[%s]" % ",".join(["h''"] * 251))),
    ("A1 06 81 58 FB" + "BB" * 251, said("blacklist=[h'%s']" % ("bb" * 251))),
    ("A1 06 82 40 00", said("blacklist=malformed", 0, "1/6")),
    ("A1 06 81 80", said("blacklist=malformed", 0, "1/6")),
    ("A1 06 40", said("blacklist=malformed", 0, "1/6")),
    ("A1 07 00", said("rate=0")),
    ("A1 07 1B FF FF FF FF FF FF FF FF", said("rate=18446744073709551615")),
    ("A1 07 20", said("rate=malformed", 0, "1/7")),
    ("A5 07 F6 04 F6 02 F6 06 F6 03 F6", said("keys=malformed address=malformed lease=malformed jrc=malformed blacklist=malformed rate=malformed", 0, "1/7,1/4,1/2,1/6,1/3")),
    ("A2 03 05 03 81 42 12 34", "refused 6 TWICE"),
    ("A1 61 61 00", "refused 5 TYPE"),
    ("80", "refused 5 TYPE"),
    ("A1 03", "refused 1 CUT"),
    ("A0 00", "refused 4 EXTRA"),
    ("A0" + "00" * 256, LONG),
]

# join requests of the published form: role, identifier, unsupported, passed, reports
REQUESTS = [
    ("A1 05 42 CA FE", "role=0 network=h'cafe' unsupported=absent passed=0 reports=[]"),
    ("A2 01 01 05 40", "role=1 network=h'' unsupported=absent passed=0 reports=[]"),
    ("A2 01 02 05 40", "role=0 network=h'' unsupported=absent passed=0 reports=[0/1]"),
    ("A2 01 20 05 40", "role=0 network=h'' unsupported=absent passed=0 reports=[1/1]"),
    ("A3 08 80 05 40 01 F6", "role=0 network=h'' unsupported=malformed passed=0 reports=[1/8,1/1]"),
    ("A2 05 40 08 82 00 07", "role=0 network=h'' unsupported=malformed passed=0 reports=[1/8]"),
    ("A2 05 40 08 84 00 07 F6 00", "role=0 network=h'' unsupported=malformed passed=0 reports=[1/8]"),
    ("A2 05 40 08 83 00 07 81 80", "role=0 network=h'' unsupported=[0/7] passed=0 reports=[]"),
    ("A2 05 40 08 86 20 37 F6 38 18 18 18 00", "role=0 network=h'' unsupported=[-1/-24,-25/24] passed=0 reports=[]"),
    (
        "A2 05 40 08 86 3B FF FF FF FF FF FF FF FF 1B FF FF FF FF FF FF FF FF F6 3B FF FF FF FF FF FF FF FE 3B 7F FF FF FF FF FF FF FF F6",
        "role=0 network=h'' unsupported=[-18446744073709551616/18446744073709551615,-18446744073709551615/-9223372036854775808] passed=0 reports=[]",
    ),
    ("A2 05 40 02 80", "role=0 network=h'' unsupported=absent passed=1 reports=[]"),
]


def published():
    """The readings of the published form, by themselves, written again, and at the end of parts."""
    for digits, answer in CONFIGURATIONS:
        yield b"new-configuration " + digits.encode(), answer
    for digits, answer in REQUESTS:
        yield b"new-request " + digits.encode(), "accepted " + answer
    for digits, answer in [("A1 01 01", "refused 9 OWED"), ("A1 05 51" + "00" * 17, "refused 9 OWED"), ("A0", "refused 9 OWED"), ("", CUT)]:
        yield b"new-request " + digits.encode(), answer
        yield b"rewrite new-request " + digits.encode(), answer
    yield b"strict-new-configuration B8 00", LOOSE
    yield b"strict-new-configuration A1 06 98 00", LOOSE
    yield b"strict-new-configuration A1 06 80", said("blacklist=[]")
    yield b"strict-new-request A1 05 58 00", LOOSE
    yield b"strict-new-request A1 05 40", "accepted " + REQUESTS[0][1].replace("cafe", "")
    yield b"rewrite new-configuration A3 18 63 F6 06 98 02 40 58 01 AA 18 07 00", "wrote h'a206824041aa0700'"
    yield b"rewrite new-configuration A5 07 F6 04 F6 02 F6 06 F6 03 F6", "wrote h'a0'"
    yield b"rewrite new-request A3 08 83 18 01 07 81 00 05 42 CA FE 01 05", "wrote h'a20542cafe08830107f6'"
    yield b"rewrite strict-new-request A2 08 83 01 07 81 00 05 42 CA FE", "wrote h'a20542cafe08830107f6'"
    yield b"rewrite" + b" " * 66000 + b"strict-new-configuration" + b" " * 66000 + b"A0\r", "wrote h'a0'"
    yield b"rewrite strict-new-configuration A1 06 98 00", LOOSE
    for word in (b"new-strict-request", b"strict-new-configurations", b"strict-new-configuratio", b"new-requests", b"new-", b"New-request"):
        yield word + b" A0", "error command"
        yield b"rewrite " + word + b" A0", "error command"
        yield b"end " + word, "error command"
    yield b"new-request x", "error hex"
    yield b"merge A1 06 80 + A0", "first refused 5 TYPE"
    for reading, part, answer in [
        (b"new-configuration", b"A1 06 98 00", said("blacklist=[]")), (b"strict-new-configuration", b"A1 06 98 00", LOOSE),
        (b"new-request", b"A1 05 58 00", "accepted " + REQUESTS[0][1].replace("cafe", "")), (b"strict-new-request", b"A1 05 58 00", LOOSE),
        (b"configuration", b"A1 06 80", "refused 5 TYPE"),
    ]:
        yield b"reset", "reset"
        yield b"part " + part, "held %d" % len(part.split())
        yield b"end " + reading, answer
        yield b"end " + reading, "refused 16 PHASE"
    yield b"reset", "reset"


if __name__ == "__main__":
    splice("decode", "decode_edges.py", lines(random.Random(9031)), ended=False)
