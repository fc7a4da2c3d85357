#!/usr/bin/env python3
"""Makes crates/test_text/stdin and stdout: lines of a desk tool's input, and what the crate tool_text is to make of each. The program is
run with --echo, so each line is written before its answer, without the carriage return that may end it.

The answers are worked out here, from the rules of the desk tools, with python's own strings and numbers: nothing is taken from the program.
"""
import os
import random
import re

HEX_AT = 3  # the word at which HEX begins


def number(words, i):
    if len(words) <= i:
        return "empty"
    digits = words[i].lstrip(b"0") or b"0"
    if re.fullmatch(rb"[0-9]+", words[i]) and len(digits) <= 20 and int(digits) < 2**64:
        return str(int(digits))
    return "fault"


def letters(word):
    return "%dh'%s'" % (min(len(word), 25), word[:24].ljust(24, b"\0").hex())


def payload(rest):
    digits = rest.replace(b" ", b"")
    if re.fullmatch(rb"([0-9A-Fa-f]{2})*", digits):
        return "h'%s'" % bytes.fromhex(digits.decode())[:257].hex()
    return "fault"


def answer(line):
    """What the line is answered, or None."""
    line = echo(line).strip(b" ")
    if not line or line.startswith(b"#"):
        return None
    words = re.findall(rb"[^ ]+", line)
    rest = re.sub(rb"^([^ ]+ *){%d}" % HEX_AT, b"", line) if HEX_AT < len(words) else b""
    tail = words[HEX_AT] if HEX_AT < len(words) else b""
    numbers = [number(words, i) for i in range(1, HEX_AT + 2)]
    return " ".join([str(min(len(words), HEX_AT + 3)), letters(words[0]), *numbers, letters(tail), payload(rest)])


def echo(line):
    """The line as it is written before its answer."""
    return line[:-1] if line.endswith(b"\r") else line


def some_number(r):
    kind = r.randrange(10)
    if kind < 3:
        return b"%d" % r.randrange(300)
    if kind < 5:
        return b"%d" % r.randrange(2**64)
    if kind == 5:
        return b"%d" % r.choice([0, 2**64 - 1, 2**64, 2**64 - 6, 2**64 - 2, 2**65, 10**19, 10**20, 2 * 10**19])
    if kind == 6:
        return b"0" * r.randrange(1, 60) + b"%d" % r.randrange(2**66)
    if kind == 7:
        return r.choice([b"-1", b"+1", b"1.", b"0x10", b"1e3", b"12\0", b"1,000", b"/", b":", b"9:", b"/9", b"\xb2", b"1\t2"])
    return b"%d" % 10 ** r.randrange(25)


def some_hex(r):
    digits = [r.choice(b"0123456789abcdefABCDEF") for _ in range(r.choice([0, 1, 2, 3, 4, 10, 32, 33, 512, 513, 514, 515, 516, 600]))]
    if r.randrange(4) == 0 and digits:
        digits[r.randrange(len(digits))] = r.choice(b"gG/:@`-\0\r\t\xff")
    spaced = r.randrange(3)
    out = b""
    for d in digits:
        if spaced and r.randrange(4) < spaced:
            out += b" " * r.randrange(1, 3)
        out += bytes([d])
    return out


def lines(r):
    for text in (b"", b" ", b"#", b" # x", b"\r", b" \r", b"\r ", b"a\r", b"a\r\r", b"a \r", b"a\r ", b"-", b"a b c - -", b"a b c -", b"a b c - ", b"\0", b"\ta"):
        yield text
    for n in range(14, 20):
        yield b"x" * n
    for _ in range(1500):
        words = [bytes(r.choice(b"abcdefghij#-") for _ in range(r.randrange(1, 20)))]
        words += [some_number(r) for _ in range(r.randrange(4))]
        gap = b" " * r.choice([1, 1, 1, 2, 5])
        line = gap.join(words + [some_hex(r)] * r.randrange(2))
        yield b" " * r.choice([0, 0, 2]) + line + r.choice([b"", b"", b" ", b"\r", b" \r", b"\r "])
    # lines far longer than the buffer of 65,536 bytes
    yield b" " * 70000 + b"poll" + b" " * 66000 + b"1" + b" " * 10 + b"2" + b" " * 66000 + b"ab" + b" " * 10 + b"cd" + b" " * 66000
    yield b"start " + b"0" * 66000 + b"7 " + b"0" * 70 + b"18446744073709551615 " + b"0" * 66000 + b"18446744073709551616"
    yield b"answer 1 2 " + b"0f" * 35000
    yield b"answer 1 2 " + b"0f" * 35000 + b"0"
    yield b"answer 1 2 " + b"0f" * 35000 + b"-"
    yield b"w" * 70000 + b" 5"
    yield b"set 1 counter 7 " + b"0" * 66000 + b"42"
    yield b"#" * 70000
    # carriage returns and line ends around the buffer's end
    for k in range(3):
        yield b"a 1 2 " + b"00" * 32760 + b"0" * k
        yield b"b 3 4 " + b"11" * r.randrange(100) + b"\r" * (k % 3)
        yield b"\r" * (65536 + k)
    for _ in range(1500):
        yield bytes(r.choice(b"  01 9afA-\r#") for _ in range(r.randrange(40)))
    yield b"last 1 2 0a\r"


def main():
    r = random.Random(9031)
    folder = os.path.join(os.path.dirname(os.path.dirname(os.path.abspath(__file__))), "crates", "test_text")
    every = list(lines(r))
    with open(os.path.join(folder, "stdin"), "wb") as f:
        f.write(b"\n".join(every))
    with open(os.path.join(folder, "stdout"), "wb") as f:
        for line in every:
            f.write(echo(line) + b"\n")
            said = answer(line)
            if said is not None:
                f.write(said.encode() + b"\n")


main()
