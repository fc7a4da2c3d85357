#!/usr/bin/env python3
"""Adds to crates/replay/stdin and stdout, after the vectors, the worked examples, one trace cut at every byte, and lines at the edges of the tool's rules.

What they are answered follows from document 02's request 4, document 01 and the rules of the desk tools, by hand: nothing is taken from the program.
"""
from splice import splice

COMMAND, HEX = "error command", "error hex"


def number(n, size):
    return n.to_bytes(size, "big")


def new_node(role, network):
    """Kind 1; the network identifier, or None."""
    bytes_of = network or b""
    return bytes([1, role, 255 if network is None else len(network)]) + bytes_of + bytes(16 - len(bytes_of))


def start(time, timeout):
    return b"\2" + number(time, 8) + number(timeout, 4)


def delivery(kind, time, payload):
    """Kinds 3 and 4, join answer and update."""
    return bytes([kind]) + number(time, 8) + number(len(payload), 2) + payload + bytes(256 - len(payload))


def verified(frame_type, identifier):
    return bytes([5, frame_type, identifier])


def poll(time):
    return b"\6" + number(time, 8)


NOTHING = "records=0/0/0/0/0/0 refusals=[] switches=0 wait=0 node=none"


def node(role, attempt, network, active="none", pending="none"):
    return (
        "role=%d phase=%s clock=%d sent=%d timeout=%d count=%d active=%s pending=%s address=none lease=none received=none jrc=none network=%s prefix=none"
        % ((role,) + attempt + (active, pending, network))
    )


# a trace, record by record, with what has been seen of it after each: a unit starts, polls, and hears frames that it has no key for
TRACE = [
    (new_node(0, b"\xca\xfe"), "records=1/0/0/0/0/0 refusals=[] switches=0 wait=0 " + node(0, ("idle", 0, 0, 0, 0), "h'cafe'")),
    (start(0, 10000), "records=1/1/0/0/0/0 refusals=[] switches=0 wait=0 " + node(0, ("waiting", 0, 0, 10000, 0), "h'cafe'")),
    (poll(10000), "records=1/1/0/0/0/1 refusals=[] switches=0 wait=0 " + node(0, ("waiting", 10000, 10000, 20000, 1), "h'cafe'")),
    (poll(5000), "records=1/1/0/0/0/2 refusals=[11:1] switches=0 wait=0 " + node(0, ("waiting", 10000, 10000, 20000, 1), "h'cafe'")),
    (verified(1, 1), "records=1/1/0/0/1/2 refusals=[11:1,14:1] switches=0 wait=0 " + node(0, ("waiting", 10000, 10000, 20000, 1), "h'cafe'")),
    (verified(1, 0), "records=1/1/0/0/2/2 refusals=[11:1,13:1,14:1] switches=0 wait=0 " + node(0, ("waiting", 10000, 10000, 20000, 1), "h'cafe'")),
    (delivery(3, 11500, b"\xa0"), "records=1/1/1/0/2/2 refusals=[11:1,13:1,14:1] switches=0 wait=11500 " + node(0, ("joined", 11500, 10000, 20000, 1), "h'cafe'")),
]

KEY = bytes(range(16))
SET = b"\xa1\x02\x82\x01\x50" + KEY
KEYS = "[1/0/h'%s'#0]" % KEY.hex()

# whole traces with their answers: readings that distinguish two programs
WHOLE = [
    # nothing; a record before the first node; an unused byte that is not zero (worked examples)
    (b"", "complete " + NOTHING),
    (poll(0), "stopped 0 " + NOTHING),
    (bytes.fromhex("010001ca000000000000000000000000000001"), "stopped 0 " + NOTHING),
    # a bad frame type after a good trace
    (b"".join(r for r, _ in TRACE[:6]) + verified(2, 1), "stopped 56 " + TRACE[5][1]),
    # a refused start does not move the wait, and its record counts
    (
        new_node(1, None) + start(5, 9999) + start(5, 12345),
        "complete records=1/2/0/0/0/0 refusals=[13:1] switches=0 wait=0 " + node(1, ("waiting", 5, 5, 12345, 0), "none"),
    ),
    (
        new_node(1, b"") + start(1000, 10000) + start(2000, 10000) + delivery(3, 3000, b"\xa0"),
        "complete records=1/2/1/0/0/0 refusals=[16:1] switches=0 wait=2000 " + node(1, ("joined", 3000, 1000, 10000, 0), "h''"),
    ),
    # a start after giving up replaces the earlier one; the longest of two waits stays
    (
        new_node(1, b"") + start(0, 10000) + b"".join(poll(10000 * (2**k - 1)) for k in range(1, 6)) + start(320000, 10000) + delivery(3, 320007, b"\xa0")
        + start(400000, 10000) + delivery(3, 400003, b"\xa0"),
        "complete records=1/3/2/0/0/5 refusals=[] switches=0 wait=7 " + node(1, ("joined", 400003, 400000, 10000, 0), "h''"),
    ),
    # a wait of 0; a second join answer is PHASE and ends no wait
    (
        new_node(1, b"") + start(7, 10000) + delivery(3, 7, b"\xa0") + delivery(3, 9, b"\xa0"),
        "complete records=1/1/2/0/0/0 refusals=[16:1] switches=0 wait=0 " + node(1, ("joined", 7, 7, 10000, 0), "h''"),
    ),
    # a node made again does not end the wait of the one before; the report continues
    (
        new_node(1, b"") + start(1, 10000) + new_node(1, None) + delivery(3, 900, b"\xa0"),
        "complete records=2/1/1/0/0/0 refusals=[16:1] switches=0 wait=0 " + node(1, ("idle", 0, 0, 0, 0), "none"),
    ),
    # an ordinary node switches by a verified frame, a border router's new set is no switch
    (
        new_node(0, b"\xca\xfe") + start(0, 10000) + delivery(3, 1, SET) + verified(0, 1) + verified(0, 1),
        "complete records=1/1/1/0/2/0 refusals=[] switches=1 wait=1 " + node(0, ("joined", 1, 0, 10000, 0), "h'cafe'", active=KEYS),
    ),
    (
        new_node(1, b"\xca\xfe") + start(0, 10000) + delivery(3, 1, SET) + verified(0, 1) + delivery(4, 2, SET),
        "complete records=1/1/1/1/1/0 refusals=[] switches=0 wait=1 " + node(1, ("joined", 2, 0, 10000, 0), "h'cafe'", active=KEYS),
    ),
    # a payload of 256 bytes is no LONG; one of 257 stops the walk
    (
        new_node(1, b"") + start(0, 10000) + delivery(3, 1, bytes(256)),
        "complete records=1/1/1/0/0/0 refusals=[4:1] switches=0 wait=0 " + node(1, ("waiting", 0, 0, 10000, 0), "h''"),
    ),
    (
        new_node(1, b"") + start(0, 10000) + b"\3" + number(1, 8) + number(257, 2) + bytes(256),
        "stopped 32 records=1/1/0/0/0/0 refusals=[] switches=0 wait=0 " + node(1, ("waiting", 0, 0, 10000, 0), "h''"),
    ),
    # bad roles, lengths and kinds stop the walk at 0
    (new_node(2, None), "stopped 0 " + NOTHING),
    (b"\1\0\x11" + bytes(16), "stopped 0 " + NOTHING),
    (b"\1\0\xfe" + bytes(16), "stopped 0 " + NOTHING),
    (b"\0", "stopped 0 " + NOTHING),
    (b"\7" + bytes(300), "stopped 0 " + NOTHING),
    (new_node(0, bytes(range(16))) + b"\0", "stopped 19 records=1/0/0/0/0/0 refusals=[] switches=0 wait=0 " + node(0, ("idle", 0, 0, 0, 0), "h'%s'" % KEY.hex())),
]


def cuts():
    """The trace cut at every byte: whole at the end of a record, else stopped where the cut one begins."""
    whole, seen = b"", NOTHING
    for record, then in TRACE:
        for n in range(len(record)):
            yield whole + record[:n], ("stopped %d " % len(whole) if n else "complete ") + seen
        whole, seen = whole + record, then
    yield whole, "complete " + seen


def lines():
    for trace, said in list(cuts()) + WHOLE:
        yield ("trace " + trace.hex()).encode(), said
    yield b"   trace   06 0000 0000 00000000  ", "stopped 0 " + NOTHING
    yield b"trace -", HEX
    yield b"trace 0", HEX
    yield b"trace 06 0g", HEX
    yield b"trace" + b" " * 70000 + b"00" * 40000, "stopped 0 " + NOTHING
    yield b"traces 06", COMMAND
    yield b"replay 06", COMMAND


if __name__ == "__main__":
    splice("replay", "replay_edges.py", lines())
