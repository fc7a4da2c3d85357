#!/usr/bin/env python3
"""Adds to crates/decode/stdin and stdout, before the lines of decode_edges.py, the round trip of every payload that decode's commands
`request`, `configuration`, `new-request` and `new-configuration` accept there, and of the largest objects of both versions: the payload is
written again, and what was written is read and written once more.

The expected output is made from the accepted payload's answer by the encoder below, which is written from RFC 7049 and RFC 9031 and knows
nothing of the crates. Lines that are in the input already are not repeated; their answers are compared.
"""
import re

from splice import HEADING, answered, parts, splice

SCRIPT = "decode_rewrites.py"
# what each command shows of an object, in this order
FIELDS = {
    "request": ("role", "network"),
    "configuration": ("keys", "address", "lease", "jrc", "network", "prefix"),
    "new-request": ("role", "network", "unsupported"),
    "new-configuration": ("keys", "address", "lease", "jrc", "blacklist", "rate"),
}


def head(major, n):
    """The shortest head."""
    if n < 24:
        return bytes([major << 5 | n])
    for info, size in ((24, 1), (25, 2), (26, 4), (27, 8)):
        if n < 1 << 8 * size:
            return bytes([major << 5 | info]) + n.to_bytes(size, "big")


def unsigned(n):
    return head(0, n)


def integer(n):
    """Unsigned, or negative: -1 - n."""
    return head(0, n) if 0 <= n else head(1, -1 - n)


def string(s):
    return head(2, len(s)) + s


def array(members):
    return head(4, len(members)) + b"".join(members)


def octets(text):
    """h'cafe', or None where a parameter is absent or discarded."""
    found = re.fullmatch(r"h'([0-9a-f]*)'", text)
    return bytes.fromhex(found.group(1)) if found else None


def groups(text):
    """[IDENTIFIER/USAGE/h'VALUE',..], additional information last: usage 0 is omitted."""
    members = []
    for key in text[1:-1].split(","):
        identifier, usage, *strings = key.split("/")
        members.append(unsigned(int(identifier)))
        if int(usage):
            members.append(unsigned(int(usage)))
        members += [string(octets(s)) for s in strings]
    return array(members)


def listed(text):
    """The members between [ and ]; None where a parameter is absent or malformed."""
    return [m for m in text[1:-1].split(",") if m] if text.startswith("[") else None


def reports(members):
    """CODE/LABEL each, written with null after them."""
    return array([part for m in members for part in (*(integer(int(n)) for n in m.split("/")), b"\xf6")])


def payload(fields):
    """The map with ascending labels that an accepted line says."""
    pairs = []
    if fields.get("role") == "1":
        pairs.append((1, unsigned(1)))
    if fields.get("keys", "").startswith("["):
        pairs.append((2, groups(fields["keys"])))
    address = octets(fields.get("address", ""))
    if address is not None:
        lease = [] if fields["lease"] == "none" else [unsigned(int(fields["lease"]))]
        pairs.append((3, array([string(address)] + lease)))
    for label, name in ((4, "jrc"), (5, "network"), (6, "prefix")):
        value = octets(fields.get(name, ""))
        if value is not None:
            pairs.append((label, string(value)))
    blacklist = listed(fields.get("blacklist", ""))
    if blacklist is not None:
        pairs.append((6, array([string(octets(s)) for s in blacklist])))
    if fields.get("rate", "").isdigit():
        pairs.append((7, unsigned(int(fields["rate"]))))
    unsupported = listed(fields.get("unsupported", ""))
    if unsupported is not None:
        pairs.append((8, reports(unsupported)))
    return head(5, len(pairs)) + b"".join(unsigned(n) + v for n, v in pairs)


def keys_of(information):
    """Eight keys with identifiers of two bytes, each with this after its value."""
    keys = ("%d/%d/h'%s'%s" % (248 + i, 7 + i, bytes(range(16 * i, 16 * i + 16)).hex(), information) for i in range(8))
    return "[" + ",".join(keys) + "]"


def accepted(command, fields):
    """What `command` answers for a payload of exactly these parameters."""
    values = ((name, fields.get(name, "0" if name == "role" else "absent")) for name in FIELDS[command])
    return "accepted " + " ".join(map("=".join, values)) + " passed=0" + (" reports=[]" if command.startswith("new-") else "")


def largest():
    """The objects that take the most bytes: every parameter of a draft's configuration at its longest, as document 01 counts them; in the
    published version 256 bytes, of keys with the longest additional information, JRC address and rate; of one byte string; of reports."""
    sixteen = {name: "h'%s'" % (byte * 16) for name, byte in (("jrc", "4a"), ("network", "4e"), ("prefix", "50"))}
    reports = ["-1/23"] * 62 + ["-%d/%d" % (2**64, 2**32)] * 2 + ["0/-25"] * 2
    for command, size, fields in (
        ("configuration", 232, dict(sixteen, keys=keys_of(""), address="h'1234'", lease=str(2**64 - 1))),
        ("new-configuration", 256, dict(keys=keys_of("/h'0001020304050607'"), jrc=sixteen["jrc"], rate="5")),
        ("new-configuration", 256, dict(blacklist="[h'%s']" % ("bb" * 251))),
        ("new-configuration", 255, dict(blacklist="[" + ",".join(["h''"] * 251) + "]")),
        ("new-request", 256, dict(role="1", network=sixteen["network"], unsupported="[" + ",".join(reports) + "]")),
    ):
        assert len(payload(fields)) == size
        yield (command, payload(fields).hex()), accepted(command, fields)


def answers(pairs):
    """The answers by command and payload, in the order of the lines; the command of a rewrite is `rewrite READING`."""
    found = {}
    for line, answer in pairs:
        words = [w for w in line.decode("latin-1").removesuffix("\r").split(" ") if w]
        if answer is not None and words[0] == "rewrite" and len(words) > 1:
            words[:2] = [" ".join(words[:2])]
        if answer is not None:
            found[words[0], "".join(words[1:]).lower()] = answer.decode("latin-1")
    return found


def round_trips(given):
    """Each accepted payload written again, and what was written read and written once more: command and payload, with the answer."""
    for (command, digits), answer in given:
        if command not in FIELDS or not answer.startswith("accepted "):
            continue
        fields = dict(w.split("=", 1) for w in answer.split(" ")[1:])
        fields = {name: value for name, value in fields.items() if value not in ("discarded", "malformed")}
        written = payload(fields).hex()
        yield ("rewrite " + command, digits), "wrote h'%s'" % written
        yield (command, written), accepted(command, fields)
        yield ("rewrite " + command, written), "wrote h'%s'" % written


def lines():
    """The round trips that are not lines of the input already; an answer that is there already must be the same."""
    own = HEADING + SCRIPT.encode()
    there = answers(pair for heading, part in parts(answered("decode")).items() if heading != own for pair in part)
    made = {}
    for key, answer in round_trips([*there.items(), *largest()]):
        assert there.get(key, answer) == answer and made.get(key, answer) == answer, key
        if key not in there:
            made[key] = answer
    return [(" ".join(key), answer) for key, answer in made.items()]


if __name__ == "__main__":
    splice("decode", SCRIPT, lines(), before="decode_edges.py")
