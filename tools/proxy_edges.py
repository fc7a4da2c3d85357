#!/usr/bin/env python3
"""Adds to crates/proxy/stdin and stdout, after the vectors: worked examples, a body damaged at each of its 31 bytes, what was issued 63, 64 and 65
issues ago, the last numbers of a key, new keys, tokens and lengths at their limits, and lines at the edges of the tool's rules.

What they are answered follows from document 02's request 7 and the rules of the desk tools, by the AES-CCM (FIPS 197, RFC 3610) and the proxy below,
which know nothing of the crates.
"""
from splice import splice

A, B = bytes(range(16)), bytes(range(16, 32))
PLEDGE = bytes.fromhex("0211223344556677")
COMMAND, NUMBER, HEX, NODE = "error command", "error number", "error hex", "error node"
NAMES = {5: "TYPE", 12: "ROOM", 13: "RANGE", 20: "SEAL", 21: "SPENT", 22: "STALE"}


# ---- AES-128 and AES-CCM-16-64-128


def times(a, b):
    """The product of two bytes modulo x^8 + x^4 + x^3 + x + 1."""
    product = 0
    while b:
        if b & 1:
            product ^= a
        a = a << 1 ^ (0x11B if a & 0x80 else 0)
        b >>= 1
    return product


def substitute(x):
    inverse = next((y for y in range(256) if times(x, y) == 1), 0)
    turned = [inverse << n | inverse >> 8 - n for n in range(5)]
    return (turned[0] ^ turned[1] ^ turned[2] ^ turned[3] ^ turned[4] ^ 0x63) & 0xFF


BOX = [substitute(x) for x in range(256)]


def mixed(a, b):
    return bytes(x ^ y for x, y in zip(a, b))


def round_keys(key):
    words, constant = [key[i : i + 4] for i in range(0, 16, 4)], 1
    while len(words) < 44:
        word = words[-1]
        if len(words) % 4 == 0:
            word = mixed(bytes(BOX[x] for x in word[1:] + word[:1]), bytes([constant, 0, 0, 0]))
            constant = times(constant, 2)
        words.append(mixed(words[-4], word))
    return [b"".join(words[i : i + 4]) for i in range(0, 44, 4)]


def encrypt(key, block):
    keys = round_keys(key)
    state = mixed(block, keys[0])
    for n in range(1, 11):
        state = bytes(BOX[state[(i + 4 * (i % 4)) % 16]] for i in range(16))
        if n < 10:
            state = bytes(
                times(state[i], 2) ^ times(state[i // 4 * 4 + (i + 1) % 4], 3) ^ state[i // 4 * 4 + (i + 2) % 4] ^ state[i // 4 * 4 + (i + 3) % 4] for i in range(16)
            )
        state = mixed(state, keys[n])
    return state


def stream(key, nonce, n):
    return encrypt(key, b"\1" + nonce + n.to_bytes(2, "big"))


def veiled(key, nonce, text):
    """The text, or what is sealed of it, under the stream from block 1 on."""
    return b"".join(mixed(text[i : i + 16], stream(key, nonce, i // 16 + 1)) for i in range(0, len(text), 16))


def tag(key, nonce, text):
    block = encrypt(key, b"\x19" + nonce + len(text).to_bytes(2, "big"))
    for i in range(0, len(text), 16):
        block = encrypt(key, mixed(block, text[i : i + 16].ljust(16, b"\0")))
    return mixed(block[:8], stream(key, nonce, 0))


def sealed(key, number, text):
    front = number.to_bytes(4, "big")
    nonce = bytes(9) + front
    return front + veiled(key, nonce, text) + tag(key, nonce, text)


# ---- a proxy, by document 02


def text_for(interface, port, token, length=None, filler=b"\0"):
    return interface + port.to_bytes(2, "big") + bytes([len(token) if length is None else length]) + token.ljust(8, filler)


def refused(number):
    return "refused %d %s" % (number, NAMES[number])


class Proxy:
    """Proxy 0 of the tool: each call is a line and its answer."""

    def __init__(self):
        self.key, self.issued, self.room, self.destination = b"", 0, 31, bytearray(64)

    def make(self, key):
        self.key, self.issued = key, 0
        return "proxy 0 " + key.hex(), "made"

    def set(self, key):
        said = refused(13)
        if key != self.key:
            self.key, self.issued, said = key, 0, "set"
        return "key 0 " + key.hex(), said

    def count(self, n):
        self.issued = n
        return "issued 0 %d" % n, "set"

    def show(self):
        return "show 0", "key=h'%s' issued=%d" % (self.key.hex(), self.issued)

    def lend(self, n):
        self.room = n
        return "room %d" % n, "lent %d" % n

    def look(self):
        return "destination", "h'%s'" % self.destination[: self.room].hex()

    def issue(self, token, port=5683):
        line = "issue 0 %s %d %s" % (PLEDGE.hex(), port, token.hex() or "-")
        if len(token) > 8:
            return line, refused(13)
        if self.issued > 0xFFFFFFFF:
            return line, refused(21)
        if self.room < 31:
            return line, refused(12)
        body = sealed(self.key, self.issued, text_for(PLEDGE, port, token))
        self.issued, self.destination[:31] = self.issued + 1, body
        return line, "body h'%s'" % body.hex()

    def judge(self, body):
        return "judge 0 " + body.hex(), self.judged(body)

    def judged(self, body):
        if len(body) != 31:
            return refused(5)
        number = int.from_bytes(body[:4], "big")
        text = veiled(self.key, bytes(9) + body[:4], body[4:23])
        if sealed(self.key, number, text) != body:
            return refused(20)
        if text[10] > 8:
            return refused(13)
        if number >= self.issued or self.issued - 1 - number >= 64:
            return refused(22)
        return "forward h'%s' %d h'%s'" % (text[:8].hex(), int.from_bytes(text[8:10], "big"), text[11 : 11 + text[10]].hex())


def worked_examples(p):
    """Bodies that stand in the tool's description, so that the AES-CCM above is held against them too."""
    assert sealed(A, 0, text_for(PLEDGE, 5683, b"\xca\xfe")).hex() == "000000007df7c5c92f52996e1b92760d29c9f3624cbdd94548f23cd458e6b3"
    assert sealed(A, 1, text_for(PLEDGE, 5683, b"")).hex() == "00000001bf764d736b2237279ddd767f61012ba6ad997dd6514662bf13c178"
    assert sealed(A, 0xFFFFFFFF, text_for(PLEDGE, 5683, b"\xca\xfe")).hex() == "fffffffffc4c85b7094eef88985ece6d0a22c8d53e5247d716b7ae2bc33e11"
    assert sealed(B, 0, text_for(PLEDGE, 5683, b"\xca\xfe")).hex() == "000000003ec7a4e2343e426df06c9a948065d4bf5cc6e1be3fc3af185306d0"
    yield p.make(A)
    yield p.lend(30)
    yield p.issue(b"\xca\xfe")
    yield p.lend(31)
    yield p.issue(b"\xca\xfe")
    yield p.issue(b"")
    yield p.show()


def damaged(p):
    """Every byte of a good body in turn, its lowest and its highest bit; then every length but 31."""
    good = sealed(A, 1, text_for(PLEDGE, 5683, b"\xca\xfe"))
    yield p.judge(good)
    for at in range(31):
        for bit in (0x01, 0x80):
            yield p.judge(good[:at] + bytes([good[at] ^ bit]) + good[at + 1 :])
    for n in list(range(31)) + [32, 62, 64, 320, 321, 640, 641, 70000]:
        yield p.judge((good * 3000)[:n])
    yield p.judge(good)


def ages(p):
    """Bodies issued up to 65 issues ago; then those around the last number of a key."""
    yield p.make(A)
    bodies = [sealed(A, n, text_for(PLEDGE, 1000 + n, b"\xca\xfe")) for n in range(66)]
    yield p.judge(bodies[0])
    for n in range(66):
        yield p.issue(b"\xca\xfe", 1000 + n)
        if n >= 62:
            for body in bodies[:3] + bodies[n - 1 : n + 2]:
                yield p.judge(body)
    yield p.count(0xFFFFFFFE)
    for _ in range(2):
        yield p.issue(b"\1")
    yield p.show()
    yield p.issue(b"\1")
    yield p.issue(bytes(9))
    yield p.lend(30)
    yield p.issue(b"\1")
    yield p.lend(31)
    for number in (0xFFFFFFBE, 0xFFFFFFBF, 0xFFFFFFC0, 0xFFFFFFFF, 0):
        yield p.judge(sealed(A, number, text_for(PLEDGE, 5683, b"\1")))


def keys(p):
    """A new key begins at 0; a former one is not remembered, and its bodies are judged by the present key alone."""
    first = sealed(A, 0, text_for(PLEDGE, 5683, b"\xca\xfe"))
    yield p.set(A)
    yield p.set(B)
    yield p.set(B)
    yield p.judge(first)
    yield p.issue(b"\xca\xfe")
    yield p.judge(first)
    yield p.set(A)
    yield p.show()
    yield p.judge(first)
    yield p.issue(b"")
    yield p.judge(first)
    yield p.make(A)
    yield p.judge(first)


def tokens(p):
    """Every length of a token, issued and forwarded; lengths over 8 under a good seal, fresh or not; bytes after the token."""
    yield p.make(A)
    for n in list(range(12)) + [79, 80, 81, 300]:
        yield p.issue(bytes(range(0xA0, 0xA0 + min(n, 32))).ljust(n, b"\xff"), n)
    for n in range(10):
        yield p.judge(sealed(A, n, text_for(PLEDGE, n, bytes(range(0xA0, 0xA0 + min(n, 8))))))
    for length in (8, 9, 10, 127, 128, 255):
        for number in (0, 100):
            yield p.judge(sealed(A, number, text_for(PLEDGE, 65535, b"\xca\xfe", length)))
    for n in range(9):
        yield p.judge(sealed(A, 2, text_for(bytes(8), 0, bytes(n), filler=b"\xff")))


def destinations(p):
    """The first 31 bytes of what is lent are written, and no others; a refused issue writes none."""
    yield p.make(B)
    for room in (64, 0, 30, 31, 32, 64):
        yield p.lend(room)
        yield p.issue(bytes([room]))
        yield p.issue(bytes(9))
        yield p.look()


def lines():
    p = Proxy()
    for part in (worked_examples, damaged, ages, keys, tokens, destinations):
        for line, said in part(p):
            yield line.encode(), said
    yield b"   show    0  \r", p.show()[1]
    yield b"show\t0", COMMAND
    yield b"show 00000000000000000000000", p.show()[1]
    yield b"show 16", NODE
    yield b"show 14", NODE
    yield b"show 18446744073709551615", NODE
    yield b"show 18446744073709551616", NUMBER
    yield b"show", COMMAND
    yield b"show 0 0", COMMAND
    yield b"judge 14", NODE
    yield b"judge 0", refused(5)
    yield b"judge 0 -", HEX
    yield b"judge 0 0", HEX
    yield b"judge 0 0g", HEX
    yield b"judge - 00", NUMBER
    yield b"issue 0 0211223344556677 65536 0g", NUMBER
    yield b"issue 0 0211223344556677 5683 0g", HEX
    yield b"issue 0 02112233445566 5683 -", HEX
    yield b"issue 0 021122334455667788 5683 -", HEX
    yield b"issue 14 0211223344556677 5683 -", NODE
    yield b"issue 0 0211223344556677 5683 - -", COMMAND
    yield b"issued 0 4294967297", NUMBER
    yield b"key 0 " + b"0" * 200000, HEX
    yield b"proxy 16 " + b"0" * 32, NODE
    yield b"proxy 14 " + b"0" * 31, HEX
    yield b"show 14", NODE
    yield b"room 65", NUMBER
    yield b"proxies 0", COMMAND


if __name__ == "__main__":
    splice("proxy", "proxy_edges.py", lines())
