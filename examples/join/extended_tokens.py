"""RFC 8974, extended tokens, for aiocoap's messages, which have none: token lengths 13 to 268 (nibble 13 and one more byte)."""
import struct

from aiocoap import error
from aiocoap.message import Message
from aiocoap.numbers import Code, Type

SHORTEST, LONGEST = 13, 268
_encode, _decode = Message.encode, Message.decode.__func__


def encode(self):
    if len(self.token) < SHORTEST:
        return _encode(self)
    if len(self.token) > LONGEST:
        raise ValueError("a token of %d bytes" % len(self.token))
    head = struct.pack("!BBHB", 1 << 6 | self.mtype << 4 | 13, self.code, self.mid, len(self.token) - SHORTEST)
    return head + self.token + self.opt.encode() + (b"\xff" + self.payload if self.payload else b"")


def decode(cls, data, remote=None):
    if len(data) < 5 or data[0] >> 6 != 1 or data[0] & 15 != 13:
        return _decode(cls, data, remote)
    first, code, mid, more = struct.unpack("!BBHB", data[:5])
    end = 5 + SHORTEST + more
    if len(data) < end:
        raise error.UnparsableMessage("the datagram ends inside its token")
    message = cls(mtype=Type(first >> 4 & 3), mid=mid, code=Code(code), token=data[5:end])
    message.payload = message.opt.decode(data[end:])
    message.remote = remote
    return message


def install():
    Message.encode, Message.decode = encode, classmethod(decode)
