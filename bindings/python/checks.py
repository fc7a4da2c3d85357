#!/usr/bin/env python3
"""What the package refuses before a call, and that nothing is cut off on the way. Prints `N passed, M failed`.

    checks.py [LIBRARY]"""
import ctypes
import doctest
import inspect
import pickle
import sys

import pothatch as p
from pothatch import FrameType, Limit, Reading, Role, Version

passed = failed = 0


def check(what, holds):
    global passed, failed
    passed, failed = passed + bool(holds), failed + (not holds)
    if not holds:
        print("differs: %s" % what)


def raises(what, error, call, *words):
    try:
        call(*words)
    except error as e:
        check("%s: %s" % (what, e), type(e) is error)
    else:
        check("%s: nothing was raised" % what, False)


def refused(what, name, call, *words):
    try:
        call(*words)
    except p.Refused as e:
        check("%s: %s" % (what, e), e.name == name)
    else:
        check("%s: accepted" % what, False)


def joined(lib):
    node, request = lib.node_make(Version.DRAFT, Role.NODE, b"\xca\xfe"), bytearray(Limit.REQUEST_MOST)
    lib.node_start(node, 0, 10000, request)
    lib.node_answer(node, 1, bytes.fromhex("a1028201 50") + bytes(16))
    lib.node_verified(node, FrameType.DATA, 1)
    return node


def integers(lib):
    memory, node = bytearray(100 * Limit.PLACE), joined(lib)
    before = bytes(node)
    refused("first", "RANGE", lib.ledger_open, 0x11000, 1, memory)
    refused("size", "RANGE", lib.ledger_open, 0x1000, 65537, memory)
    refused("frame type", "RANGE", lib.node_receive, node, 256, 257)
    refused("identifier", "RANGE", lib.node_receive, node, 1, 257)
    refused("role", "RANGE", lib.node_make, 0, 256, None)
    raises("a negative time", ValueError, lib.node_poll, node, -1)
    raises("2^64", ValueError, lib.node_poll, node, 2**64)
    raises("a negative address", ValueError, lib.ledger_open, -1, 1, memory)
    raises("a float", TypeError, lib.node_poll, node, 1.0)
    raises("a string", TypeError, lib.node_poll, node, "1")
    raises("a bool", TypeError, lib.node_poll, node, True)
    raises("None", TypeError, lib.node_poll, node, None)
    check("the node stays", bytes(node) == before)
    image = lib.node_reserve(node, FrameType.DATA, 3)
    sent = [p.number(lib.node_send(n, FrameType.DATA).counter) for n in (node, node, node, p.Node.load(image))]
    check("reserved counters", sent == [0, 1, 2, 3])
    raises("a negative count", ValueError, lib.node_reserve, node, FrameType.DATA, -1)
    check("a code by its name", lib.node_send(node, FrameType.DATA).key.identifier == 1)


def buffers(lib):
    memory = bytearray(3 * Limit.PLACE)
    ledger, node, board = lib.ledger_open(1, 3, memory), joined(lib), bytes(8)
    key, nonce = bytes(16), bytes(13)
    raises("bytes as a destination", TypeError, lib.seal, key, nonce, b"", b"text", bytes(12))
    raises("a read-only view", TypeError, lib.seal, key, nonce, b"", b"text", memoryview(bytes(12)))
    raises("bytes as memory", TypeError, lib.ledger_grant, ledger, bytes(memory), board)
    raises("a list", TypeError, lib.seal, [0] * 16, nonce, b"", b"text", bytearray(12))
    raises("a string", TypeError, lib.seal, key, nonce, b"", "text", bytearray(12))
    raises("a short key", ValueError, lib.seal, key[1:], nonce, b"", b"text", bytearray(12))
    raises("a long nonce", ValueError, lib.seal, key, nonce + b"0", b"", b"text", bytearray(12))
    raises("a short board", ValueError, lib.ledger_grant, ledger, memory, board[1:])
    raises("every other byte", TypeError, lib.seal, key, nonce, b"", b"text", memoryview(bytearray(24))[::2])
    raises("a ledger as a node", TypeError, lib.node_poll, ledger, 0)
    raises("an image as a node", TypeError, lib.node_poll, bytes(node), 0)
    raises("a request as a configuration", TypeError, lib.configuration_write, 0, p.Request(), bytearray(9))
    both = bytearray(40)
    view = memoryview(both)
    raises("text and destination overlap", ValueError, lib.seal, key, nonce, b"", view[:8], view[4:20])
    check("apart in one buffer", lib.seal(key, nonce, b"", view[:8], view[8:24]) == 16)
    check("written in place", lib.unseal(key, nonce, b"", bytes(view[8:24]), view[24:32]) == 8 and both[24:32] == both[:8])
    check("in a part of the memory", lib.ledger_grant(ledger, memoryview(memory), board) == 1 and memory[0] == 1)
    refused("no room", "ROOM", lib.seal, key, nonce, b"", b"text", bytearray(11))
    one = p.Configuration.new()
    check("one configuration twice", bytes(lib.configuration_merge(one, one)) == bytes(one))
    raises("too few arguments", TypeError, lib.call, "node_poll", node)
    raises("a result of another width", TypeError, lib.call, "node_poll", node, 2, ctypes.c_uint8())
    raises("a result that is no ctypes integer", TypeError, lib.call, "node_poll", node, 2, 0)
    word, room = ctypes.c_uint32(), (ctypes.c_uint64 * 3)()
    raises("one result twice", ValueError, lib.call, "key_usage", 1, word, word)
    inside = ctypes.c_uint64.from_buffer(room, 8)
    raises("a result in the destination", ValueError, lib.call, "seal", key, nonce, b"", b"text", memoryview(room).cast("B"), inside)
    raises("a result out of line", ValueError, lib.call, "key_usage", 1, word, ctypes.c_uint32.from_buffer(room, 2))
    check("results side by side", lib.call("key_usage", 1, word, ctypes.c_uint32.from_buffer(room, 4)) == 0)


def members(lib):
    c, before = p.Configuration.new(), bytes(p.Configuration.new())
    for value in (256, 257, -1):
        raises("a byte", ValueError, setattr, c.keys.keys[0], "identifier", value)
        raises("an item", ValueError, c.address.bytes.__setitem__, 0, value)
        raises("items", ValueError, c.address.bytes.__setitem__, slice(None), [0, value])
        raises("a whole member", ValueError, setattr, c.address, "bytes", (0, value))
        raises("when it is made", ValueError, lambda n: p.Key(identifier=n), value)
        raises("an error's code", ValueError, c.came.entry[1].__setitem__, 0, value)
    raises("a float", TypeError, setattr, c.address, "leased", 1.0)
    raises("a bool", TypeError, setattr, c.address, "leased", True)
    raises("a misspelt member", AttributeError, setattr, c.address, "leases", 1)
    raises("a misspelt member when it is made", AttributeError, lambda: p.Configuration(knid=1))
    check("nothing was set", bytes(c) == before)
    c.keys.keys[7].identifier, c.address.bytes = 255, (1, 2)
    c.keys.keys[7].value[:], c.keys.keys[7].value[15] = bytes(range(16)), 255
    check("set", bytes(c.keys.keys[7])[:18] == b"\xff\0" + bytes(range(15)) + b"\xff" and bytes(c.address.bytes) == b"\1\2")
    dst = bytearray(Limit.PAYLOAD_MOST)
    check("not taken, not written", lib.configuration_write(Version.DRAFT, c, dst) == 1 and dst[0] == 0xA0)
    c.address.report = p.Report.TAKEN
    p.put(c.address.lease, 9)
    check("no lease", dst[: lib.configuration_write(Version.DRAFT, c, dst)] == bytes.fromhex("a10381420102"))
    c.address.leased = 1
    check("a lease", dst[: lib.configuration_write(Version.DRAFT, c, dst)] == bytes.fromhex("a1038242010209"))
    check("an empty request", bytes(p.Request.new())[:3] == b"Q\x01\0")


def images(lib):
    node, ledger = joined(lib), lib.ledger_open(1, 3, bytearray(27))
    for state in (node, ledger):
        check("loaded", bytes(type(state).load(bytes(state))) == bytes(state))
    image = bytes(node)
    raises("too short", ValueError, p.Node.load, image[:-1])
    raises("too long", ValueError, p.Node.load, image + b"\0")
    raises("another kind", ValueError, p.Node.load, b"L" + image[1:])
    raises("another layout", ValueError, p.Node.load, image[:1] + b"\2" + image[2:])
    raises("a ledger as a node", ValueError, p.Node.load, bytes(ledger))
    for count in (0, 1):
        refused("no such type", "RANGE", lib.node_reserve, node, 2, count)
        refused("not a node", "RANGE", lib.node_reserve, p.Node(), FrameType.DATA, count)
    refused("too many", "RANGE", lib.node_reserve, node, FrameType.DATA, p.RESERVE_MOST + 1)
    fresh = lib.node_make(Version.DRAFT, Role.NODE, b"ab")
    check("nothing reserved", lib.node_reserve(node, FrameType.DATA, 0) == image and lib.node_reserve(fresh, 1, 0) == bytes(fresh))
    refused("no key", "SILENT", lib.node_reserve, fresh, FrameType.DATA, 1)


def counters(lib):
    """A key value that comes back, under its own identifier or another one, counts from 0 again."""
    node, seen = joined(lib), []
    for time, identifier in ((2, 2), (3, 1)):
        seen.append([p.number(lib.node_send(node, FrameType.DATA).counter) for _ in range(2)])
        lib.node_update(node, time, bytes([0xA1, 2, 0x82, identifier, 0x50]) + bytes(16))
        check("switched", lib.node_verified(node, FrameType.DATA, identifier) == p.Change.SWITCHED)
    check("from 0 again", seen == [[0, 1], [0, 1]] and p.number(lib.node_send(node, FrameType.DATA).counter) == 0)


def words(lib):
    for number in range(1, 23):
        e = p.Refused(number)
        check("name", lib.refusal_name(number) == e.name and str(e) == "%d %s: %s" % (number, e.name, e.meaning))
        again = pickle.loads(pickle.dumps(e))
        check("pickled", type(again) is p.Refused and (again.number, str(again)) == (number, str(e)))
    check("an unknown number", p.Refused(23).name == "OTHER" and pickle.loads(pickle.dumps(p.Refused(23))).number == 23)
    check("key usage", [lib.key_usage(u) for u in (0, 7, 14)] == [(True, 4), (False, 8), (True, 16)])
    check("by name", lib.key_usage(3).encrypted is False and lib.key_usage(3).mic_length == 4)
    refused("key usage", "RANGE", lib.key_usage, 15)
    raises("put", OverflowError, p.put, p.Address().lease, 2**64)
    names = {n for n, _ in inspect.getmembers(p.Library, inspect.isfunction) if not n.startswith("_")}
    check("all functions", names == set(p._api.SIGNATURES) | {"call", "node_reserve"})
    for name in sorted(names):
        method = getattr(p.Library, name)
        hints = set(inspect.signature(method).parameters) - {"self", "words"} <= set(method.__annotations__)
        check("%s is described" % name, method.__doc__ and hints and "return" in method.__annotations__)
    p.LAYOUT += 1
    raises("a library of another layout", p.LayoutError, p.Library, *sys.argv[1:2])
    p.LAYOUT -= 1
    for struct in p.KINDS.values():
        check("alignment", ctypes.alignment(struct) == 1)


def main():
    lib = p.Library(*sys.argv[1:2])
    integers(lib)
    buffers(lib)
    members(lib)
    images(lib)
    counters(lib)
    words(lib)
    if not sys.argv[1:]:
        check("the docstring's example", doctest.testmod(p).failed == 0)
    reading = lib.request_read(Version.DRAFT, Reading.READ_STRICT, bytes.fromhex("a10542cafe"))
    check("reading", bytes(reading.network.bytes[: reading.network.len]) == b"\xca\xfe")
    print("%d passed, %d failed" % (passed, failed))
    sys.exit(0 if passed and not failed else 1)


if __name__ == "__main__":
    main()
