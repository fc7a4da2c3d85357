#!/usr/bin/env python3
"""The fixture's story: a board's join request is read, the ledger grants an address, a configuration is made and written, sealed for the
board, and the board's node takes it. Each step writes a line; what the fixture gave and what the board holds are compared at the end.

    fixture.py [LIBRARY]"""
import os
import sys

sys.path.insert(0, os.path.dirname(os.path.abspath(__file__)))
import pothatch as p  # noqa: E402
from pothatch import Change, FrameType, Limit, Reading, Report, Role, Version  # noqa: E402

BOARD = bytes.fromhex("00124b0014b5d301")
LINK_KEY = bytes(range(16))  # the network's key
JOIN_KEY = bytes(range(16, 32))  # what the board and the fixture share
NONCE = bytes(13)


def configuration(address):
    """One key and the address for an hour."""
    c = p.Configuration.new()
    c.keys_report, c.keys.count = Report.TAKEN, 1
    c.keys.keys[0].identifier = 1
    c.keys.keys[0].value[:] = LINK_KEY
    c.address.report, c.address.leased = Report.TAKEN, 1
    p.put(c.address.bytes, address)
    p.put(c.address.lease, 3600)
    return c


def main():
    lib = p.Library(sys.argv[1] if len(sys.argv) > 1 else None)
    node, request = lib.node_make(Version.DRAFT, Role.NODE, bytes.fromhex("cafe")), bytearray(Limit.REQUEST_MOST)
    n = lib.node_start(node, 0, 10000, request)
    print("the board asks:", request[:n].hex())

    asked = lib.request_read(Version.DRAFT, Reading.READ_STRICT, request[:n])
    print("it wants to join network", bytes(asked.network.bytes[: asked.network.len]).hex())
    memory = bytearray(100 * Limit.PLACE)
    ledger = lib.ledger_open(0x1000, 100, memory)
    address = lib.ledger_grant(ledger, memory, BOARD)
    print("granted %04x, %d left" % (address, lib.ledger_free(ledger)))
    payload, sealed = bytearray(Limit.PAYLOAD_MOST), bytearray(Limit.PAYLOAD_MOST + Limit.TAG)
    n = lib.configuration_write(Version.DRAFT, configuration(address), payload)
    print("configuration:", payload[:n].hex())
    n = lib.seal(JOIN_KEY, NONCE, BOARD, payload[:n], sealed)
    print("sealed:", sealed[:n].hex())

    opened = bytearray(Limit.PAYLOAD_MOST)
    n = lib.unseal(JOIN_KEY, NONCE, BOARD, sealed[:n], opened)
    lib.node_answer(node, 2000, opened[:n])
    try:
        lib.unseal(JOIN_KEY, NONCE, b"", sealed[: n + 8], opened)
    except p.Refused as e:
        print("for another board:", e)
    holds = [lib.node_holds(node, time) for time in (2_000, 3_601_999, 3_602_000)]
    print("the board holds %s: now, at the last moment of the hour, after it:" % bytes(node.address.bytes).hex(), holds)
    switched = lib.node_verified(node, FrameType.BEACON, 1) == Change.SWITCHED
    key = lib.node_send(node, FrameType.DATA)
    good = switched and holds == [True, True, False] and bytes(key.key.value) == LINK_KEY and p.number(node.address.bytes) == address
    good = good and p.number(key.counter) == 0
    print("%d passed, %d failed" % (good, not good))
    sys.exit(0 if good else 1)


main()
