#!/usr/bin/env python3
"""Makes random calls of every function of the native library and writes each with its answer as a line of JSON, for test_calls.js: name,
arguments, refusal, and the bytes of all slices and results after the call. Slices are hexadecimal, results and numbers are numbers.

Usage: calls.py LIBRARY INTERFACE COUNT > FILE"""
import ctypes
import json
import os
import random
import re
import sys

ROOT = os.path.dirname(os.path.dirname(os.path.dirname(os.path.abspath(__file__))))
INTEGER = {1: ctypes.c_uint8, 2: ctypes.c_uint16, 4: ctypes.c_uint32, 8: ctypes.c_uint64}
random = random.Random(6)


class Native:
    """The shared library. Slices are bytearrays, which a call may change."""

    def __init__(self, path, interface):
        self.library, self.made = ctypes.CDLL(path), 0
        self.functions, self.sizes = interface["functions"], interface["sizes"]
        active = next(member[1] for member in interface["structs"]["node"] if member[0] == "active")
        self.first_identifier = active + 1  # where a node has the identifier of its first active key

    def call(self, name, *args):
        """Makes and writes the call. Returns the refusal and the values of its results."""
        before = [arg.hex() if isinstance(arg, bytearray) else arg for arg in args]
        words, results, given = [], [], iter(args)
        for kind, _, size in self.functions[name]:
            if kind == "result":
                results.append(INTEGER[size](0x5A))
                words.append(ctypes.byref(results[-1]))
            elif kind == "number":
                words.append(INTEGER[size](next(given)))
            else:
                arg = next(given)
                words += [(ctypes.c_uint8 * len(arg)).from_buffer(arg), ctypes.c_uint64(len(arg))]
        function = getattr(self.library, "pothatch_" + name)
        function.restype = ctypes.c_uint32
        refusal, values = function(*words), [result.value for result in results]
        del words
        after = [arg.hex() for arg in args if isinstance(arg, bytearray)]
        print(json.dumps([name, before, refusal, after, [str(value) for value in values]]))
        self.made += 1
        return refusal, values


def recorded(crate, pattern):
    """The HEX of the lines of a program's recorded input that match."""
    with open(os.path.join(ROOT, "crates", crate, "stdin"), encoding="latin-1") as f:
        found = (re.match(pattern, line) for line in f if len(line) < 2000)
        digits = [match.group(1).replace(" ", "") for match in found if match]
    return [bytearray.fromhex(text) for text in digits if re.fullmatch(r"([0-9a-fA-F]{2})*", text)]


PAYLOADS = recorded("decode", r"(?:strict-)?(?:new-)?(?:request|configuration) ([0-9a-fA-F ]*)$")
TRACES = recorded("replay", r"trace ([0-9a-fA-F ]*)$")


def octets(*sizes):
    return bytearray(random.randbytes(random.choice(sizes)))


def damaged(image, chance=0.1):
    """Now and then another byte, or another length."""
    if random.random() < chance and image:
        image = bytearray(image)
        if random.random() < 0.3:
            return image[:-1]
        image[random.randrange(len(image))] = random.choice((0, 1, 2, 255, random.randrange(256)))
    return image


def payload():
    return damaged(bytearray(random.choice(PAYLOADS)), 0.2)


def code(most=1):
    return random.randrange(most + 1) if random.random() < 0.95 else random.randrange(256)


def payloads(n):
    what, version = random.choice(("request", "configuration")), code()
    out = bytearray(n.sizes[what])
    refusal, _ = n.call(what + "_read", version, code(), payload(), out)
    if refusal == 0:
        n.call(what + "_write", version, damaged(out), octets(0, 5, 40, 255, 256, 300))
        other = bytearray(n.sizes["configuration"])
        if what == "configuration" and n.call("configuration_read", 0, 0, payload(), other)[0] == 0:
            n.call("configuration_merge", out, other, bytearray(n.sizes["configuration"]))


def node(n):
    image, time = bytearray(n.sizes["node"]), 0
    n.call("node_make", code(), code(), code(), octets(0, 2, 16, 17), image)
    n.call("node_start", image, time, random.randrange(9999, 15002), octets(4, 7, 38, 64))
    for _ in range(random.randrange(12)):
        image = damaged(image, 0.03)
        time = max(0, time + random.choice((0, 1, 10000, 100000, -1)))
        kind, key, reports = code(), bytearray(n.sizes["frame_key"]), bytearray(n.sizes["reports"])
        identifier = random.choice((image[n.first_identifier] if len(image) > 60 else 1, 0, 1, 2, 3))
        random.choice((
            lambda: n.call("node_poll", image, time),
            lambda: n.call("node_answer", image, time, payload(), reports),
            lambda: n.call("node_update", image, time, payload(), reports),
            lambda: n.call("node_holds", image, time),
            lambda: n.call("node_send", image, kind, key),
            lambda: n.call("node_receive", image, kind, identifier, key),
            lambda: n.call("node_verified", image, kind, identifier),
        ))()  # fmt: skip


def ledger(n):
    size = random.choice((0, 1, 3, 64, 65, 100))
    memory, image = bytearray(9 * size - (random.random() < 0.1 and size > 0)), bytearray(n.sizes["ledger"])
    n.call("ledger_open", random.choice((0, 0x1000, 0xFFF0, 0xFFFE)), size, memory, image)
    boards = [octets(8, 8, 8, 7) for _ in range(4)]
    for _ in range(random.randrange(10)):
        image = damaged(image, 0.03)
        n.call(random.choice(("ledger_grant", "ledger_grant", "ledger_give_back")), image, memory, random.choice(boards))
        n.call("ledger_free", image)


def cipher(n):
    key, nonce, associated, text = octets(16, 16, 16, 15), octets(13, 13, 13, 12), octets(0, 1, 15, 64, 65), octets(0, 1, 16, 31, 256, 257)
    sealed = bytearray(len(text) + 8 - (random.random() < 0.1))
    n.call("seal", key, nonce, associated, text, sealed)
    n.call("unseal", key, nonce, associated, damaged(sealed, 0.3), octets(len(text), len(text), max(len(text) - 1, 0)))


def proxy(n):
    image = bytearray(n.sizes["proxy"])
    n.call("proxy_make", octets(16, 16, 15), image)
    bodies = [octets(31, 30)]
    for _ in range(random.randrange(6)):
        body = octets(31, 31, 30)
        n.call("proxy_issue", damaged(image, 0.05), octets(8, 8, 7), random.randrange(65536), octets(0, 1, 8, 9), body)
        bodies.append(body)
        n.call("proxy_judge", image, damaged(bytearray(random.choice(bodies)), 0.2), bytearray(n.sizes["pledge"]))
        if random.random() < 0.2:
            n.call("proxy_set_key", image, octets(16, 17))


def serial(n):
    image, store, whole = bytearray(n.sizes["serial"]), octets(256, 256, 300, 255), payload()
    n.call("serial_reset", image)
    while whole:
        length = random.randrange(1, 40)
        n.call("serial_part", image, store, whole[:length])
        whole = whole[length:]
    what = random.choice(("request", "configuration"))
    for _ in range(2):
        n.call("serial_end_" + what, image, store, code(), code(), bytearray(n.sizes[what]))


def rest(n):
    n.call("layout")
    n.call("size", random.choice((*b"QCRKNLPGST", random.randrange(256))))
    n.call("refusal_name", random.randrange(30), octets(8, 8, 8, 7))
    n.call("replay", damaged(bytearray(random.choice(TRACES))), bytearray(n.sizes["node"]), bytearray(n.sizes["replayed"]))


def anything(n):
    """Each function once, with arguments of any value and length."""
    for name, parameters in n.functions.items():
        lengths = (0, 1, 8, 16, *n.sizes.values())
        n.call(name, *(code(3) if kind == "number" else octets(*lengths) for kind, _, _ in parameters if kind != "result"))


def main():
    with open(sys.argv[2], encoding="utf-8") as f:
        n = Native(sys.argv[1], json.load(f))
    for _ in range(10):
        anything(n)
    while n.made < int(sys.argv[3]):
        random.choice((payloads, node, node, ledger, cipher, proxy, serial, rest))(n)


main()
