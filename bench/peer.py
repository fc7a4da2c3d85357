"""The second peer of bench/decode.sh: the same as peer.c, with the python package cbor2."""
import re
import sys

import cbor2

for line in sys.stdin.buffer:
    digits = re.sub(rb"[^0-9a-fA-F]", b"", line.partition(b" ")[2])
    try:
        cbor2.loads(bytes.fromhex(digits[: len(digits) & ~1].decode()))
        print("item")
    except Exception:
        print("error")
