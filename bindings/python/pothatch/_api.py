"""Codes, structs and signatures of the library. Made by bindings/generate.py."""
from __future__ import annotations

import ctypes
import enum
from typing import Any, Dict, Optional, Tuple, Type, TypeVar, Union

LAYOUT = 1
_U8 = ctypes.c_uint8
_Any = TypeVar("_Any", bound="_Image")
_ARRAYS: Dict[int, Any] = {}


def _octet(name: str, value: object) -> int:
    if isinstance(value, bool) or not isinstance(value, int):
        raise TypeError("%s must be an int, not %s" % (name, type(value).__name__))
    if not 0 <= value <= 255:
        raise ValueError("%s is one byte: it must be within 0 to 255, not %d" % (name, value))
    return value


def _octets(count: int) -> Any:
    """The type of a member of so many bytes, which refuses what is not a byte. ctypes alone would cut it off."""

    def __setitem__(self: Any, at: Any, value: Any) -> None:
        if isinstance(at, slice):
            value = value if isinstance(value, (bytes, bytearray)) else [_octet("an item", v) for v in value]
        else:
            value = _octet("an item", value)
        plain.__setitem__(self, at, value)

    if count not in _ARRAYS:
        plain: Any = _U8 * count
        _ARRAYS[count] = type("Octets%d" % count, (plain,), {"__setitem__": __setitem__})
    return _ARRAYS[count]


class _Members(ctypes.Structure):
    """A struct of bytes: a member that it does not have is refused with AttributeError, a number that is not a byte with ValueError."""

    def __setattr__(self, name: str, value: Any) -> None:
        kind = self._kinds.get(name)
        if kind is None:
            raise AttributeError("%s has no member %s" % (type(self).__name__, name))
        if kind is _U8:
            value = _octet(name, value)
        elif isinstance(value, tuple):
            value = kind(*value)
        super().__setattr__(name, value)

    def __init_subclass__(cls, **words: Any) -> None:
        super().__init_subclass__(**words)
        cls._kinds = dict(cls.__dict__.get("_fields_", ()))

    _kinds: Dict[str, Any] = {}


class _Image(_Members):
    """A struct with a kind and a layout."""

    KIND = ""

    @classmethod
    def load(cls: Type[_Any], image: Union[bytes, bytearray, memoryview]) -> _Any:
        """The struct of a stored image; ValueError for another length, kind or layout. The calls judge the members."""
        data = bytes(image)
        if len(data) != ctypes.sizeof(cls):
            raise ValueError("the image of a %s has %d bytes, not %d" % (cls.__name__, ctypes.sizeof(cls), len(data)))
        if data[0] != ord(cls.KIND):
            raise ValueError("the image of a %s begins with %r, not %r" % (cls.__name__, cls.KIND.encode(), data[:1]))
        if data[1] != LAYOUT:
            raise ValueError("the image has layout %d, this package %d" % (data[1], LAYOUT))
        return cls.from_buffer_copy(data)


_Made = TypeVar("_Made", bound="_Object")


class _Object(_Image):
    """A struct that a caller may make by hand."""

    @classmethod
    def new(cls: Type[_Made]) -> _Made:
        """An empty one, with its kind and layout. A parameter is written only if its report is set to Report.TAKEN."""
        return cls(kind=ord(cls.KIND), layout=LAYOUT)


class Refusal(enum.IntEnum):
    """The papers' numbers for why a call was refused."""

    CUT = 1  # the payload ends inside a data item
    FORM = 2  # the payload has a CBOR head that is not supported
    DEEP = 3  # the payload nests over eight levels
    EXTRA = 4  # bytes follow the payload's data item
    TYPE = 5  # not a map, a label that is not an integer, or a value of another type
    TWICE = 6  # a parameter occurs twice
    KEYS = 7  # a key set outside its limits
    ROLE = 8  # an undefined role
    OWED = 9  # a network identifier is due and missing
    CLASH = 10  # a new key set shares identifiers with the active one
    CLOCK = 11  # a time before the last one
    ROOM = 12  # a destination or memory too short
    RANGE = 13  # an argument outside its limits
    SILENT = 14  # no key for the frame
    LONG = 15  # a payload over 256 bytes
    PHASE = 16  # not in this phase
    FULL = 17  # no free address
    UNKNOWN = 18  # the board holds no address
    LOOSE = 19  # a CBOR head that is not the shortest
    SEAL = 20  # the tag is wrong
    SPENT = 21  # all sequence numbers of the key are used
    STALE = 22  # the option body is too old or was never issued


class Version(enum.IntEnum):
    """Which document a payload or node follows."""

    DRAFT = 0  # draft-ietf-6tisch-minimal-security-06
    PUBLISHED = 1  # RFC 9031


class Reading(enum.IntEnum):
    """How strict a reading is."""

    READ_ANY = 0  # accepts any CBOR head
    READ_STRICT = 1  # accepts shortest heads only, else LOOSE


class Role(enum.IntEnum):
    """A node's role."""

    NODE = 0  # ordinary node
    BORDER = 1  # border router (6LBR)


class Report(enum.IntEnum):
    """What became of a parameter. In a node's members: 0 none, 1 held."""

    ABSENT = 0  # not in the payload
    TAKEN = 1  # taken
    DISCARDED = 2  # discarded; in RFC 9031 malformed and reported


class Phase(enum.IntEnum):
    """Where a join attempt is."""

    IDLE = 0  # not started
    WAITING = 1  # waiting for the join answer
    JOINED = 2  # joined
    GAVE_UP = 3  # given up


class FrameType(enum.IntEnum):
    """The type of a frame; an acknowledgement counts as data."""

    BEACON = 0  # beacon
    DATA = 1  # data or acknowledgement


class Due(enum.IntEnum):
    """What pothatch_node_poll returns; 0 beside a refusal."""

    DUE_NOT_YET = 1  # nothing
    DUE_SEND = 2  # send the join request again
    DUE_GAVE_UP = 3  # the attempt was given up


class Holds(enum.IntEnum):
    """What pothatch_node_holds returns; 0 beside a refusal. Neither is 0: compare with HOLDS."""

    HOLDS = 1  # the short address holds
    LAPSED = 2  # no short address, or its lease is over


class Change(enum.IntEnum):
    """What pothatch_node_verified returns; 0 beside a refusal."""

    KEPT = 1  # the keys stay
    SWITCHED = 2  # the pending set became the active one


class Limit(enum.IntEnum):
    """Sizes that callers need."""

    PAYLOAD_MOST = 256  # bytes of a payload, and of a serial store
    REQUEST_MOST = 38  # bytes that a start writes at most
    BODY = 31  # bytes of a join proxy's option body
    TAG = 8  # bytes that sealing adds to a text
    PLACE = 9  # bytes of a ledger's memory for each address


MEANINGS = {
    1: "the payload ends inside a data item",
    2: "the payload has a CBOR head that is not supported",
    3: "the payload nests over eight levels",
    4: "bytes follow the payload's data item",
    5: "not a map, a label that is not an integer, or a value of another type",
    6: "a parameter occurs twice",
    7: "a key set outside its limits",
    8: "an undefined role",
    9: "a network identifier is due and missing",
    10: "a new key set shares identifiers with the active one",
    11: "a time before the last one",
    12: "a destination or memory too short",
    13: "an argument outside its limits",
    14: "no key for the frame",
    15: "a payload over 256 bytes",
    16: "not in this phase",
    17: "no free address",
    18: "the board holds no address",
    19: "a CBOR head that is not the shortest",
    20: "the tag is wrong",
    21: "all sequence numbers of the key are used",
    22: "the option body is too old or was never issued",
}


class Key(_Members):
    """One link-layer key. 27 bytes."""

    _fields_ = [
        ("identifier", _U8),  # 1 to 255
        ("usage", _U8),  # 0 to 14; pothatch_key_usage says what it means
        ("value", _octets(16)),
        ("info_len", _U8),  # length of the additional information (RFC 9031): 0, 4 or 8
        ("info", _octets(8)),  # zeros after the first info_len
    ]


class KeySet(_Members):
    """A set of keys. 217 bytes."""

    _fields_ = [
        ("count", _U8),  # 1 to 8; 0: no set
        ("keys", Key * 8),  # those after the first count do not count, but their info is judged
    ]


class Octets(_Members):
    """A JRC address, network identifier or prefix. 18 bytes."""

    _fields_ = [
        ("report", _U8),  # written only if TAKEN
        ("len", _U8),  # 0 to 16, a JRC address 16; an empty one is not an absent one
        ("bytes", _octets(16)),
    ]


class Address(_Members):
    """A short address and its lease. 12 bytes."""

    _fields_ = [
        ("report", _U8),  # written only if TAKEN
        ("bytes", _octets(2)),  # FFFE and FFFF are not addresses
        ("leased", _U8),  # 0: no end, and `lease` is not written; 1: for `lease`
        ("lease", _octets(8)),  # seconds; in RFC 9031 hours. Ask pothatch_node_holds rather than converting it
    ]


class List(_Members):
    """The members of a CBOR array, in shortest heads, one after another. 256 bytes."""

    _fields_ = [
        ("report", _U8),  # written only if TAKEN
        ("count", _U8),  # members
        ("len", _U8),  # bytes, 0 to 253
        ("bytes", _octets(253)),
    ]


class Rate(_Members):
    """A join rate. 9 bytes."""

    _fields_ = [
        ("report", _U8),  # written only if TAKEN
        ("value", _octets(8)),  # bytes a second
    ]


class Faults(_Members):
    """Error reports of parameters, in payload order. 11 bytes."""

    _fields_ = [
        ("count", _U8),  # 0 to 5
        ("entry", _octets(2) * 5),  # error code (0 unsupported, 1 malformed), label
    ]


class Request(_Object):
    """A join request. A parameter is written only if its report is TAKEN. 296 bytes."""

    KIND = "Q"
    _fields_ = [
        ("kind", _U8),  # 'Q'
        ("layout", _U8),
        ("role", _U8),
        ("network", Octets),
        ("unsupported", List),  # label 8 (RFC 9031): for each report its code, its label and null
        ("faults", Faults),  # what was bad in this request (RFC 9031)
        ("passed", _octets(8)),  # number of unknown labels
    ]


class Configuration(_Object):
    """A configuration. A parameter is written only if its report (keys_report) is TAKEN, a lease only if leased is 1. 570 bytes."""

    KIND = "C"
    _fields_ = [
        ("kind", _U8),  # 'C'
        ("layout", _U8),
        ("keys_report", _U8),  # TAKEN: the keys are written
        ("keys", KeySet),
        ("address", Address),
        ("jrc", Octets),
        ("network", Octets),  # draft
        ("prefix", Octets),  # draft
        ("blacklist", List),  # byte strings (RFC 9031)
        ("rate", Rate),  # join rate (RFC 9031)
        ("came", Faults),  # RFC 9031: each known label of the payload, good or bad, in payload order, with code 1
        ("passed", _octets(8)),  # number of unknown labels
    ]


class Reports(_Image):
    """What a node made of each parameter. 17 bytes."""

    KIND = "R"
    _fields_ = [
        ("kind", _U8),  # 'R'
        ("layout", _U8),
        ("keys", _U8),
        ("address", _U8),
        ("jrc", _U8),
        ("network", _U8),
        ("prefix", _U8),
        ("blacklist", _U8),
        ("rate", _U8),
        ("passed", _octets(8)),  # number of unknown labels
    ]


class FrameKey(_Image):
    """The key for a frame. 33 bytes."""

    KIND = "K"
    _fields_ = [
        ("kind", _U8),  # 'K'
        ("layout", _U8),
        ("key", Key),
        ("counter", _octets(4)),  # the counter to send with; 0 for receiving
    ]


class CountedSet(_Members):
    """A key set with the next frame counter of each key. 249 bytes."""

    _fields_ = [
        ("set", KeySet),
        ("counters", _octets(4) * 8),
    ]


class Attempt(_Members):
    """A join attempt; times in milliseconds. 26 bytes."""

    _fields_ = [
        ("phase", _U8),
        ("clock", _octets(8)),  # the last accepted time
        ("sent", _octets(8)),  # when the request was last sent
        ("timeout", _octets(8)),  # how long after that the next step is due
        ("count", _U8),  # retransmissions made, 0 to 4
    ]


class Node(_Image):
    """A node. 878 bytes."""

    KIND = "N"
    _fields_ = [
        ("kind", _U8),  # 'N'
        ("layout", _U8),
        ("role", _U8),
        ("attempt", Attempt),
        ("active", CountedSet),
        ("pending", CountedSet),
        ("address", Address),
        ("received", _octets(8)),  # when the address was received
        ("jrc", Octets),
        ("network", Octets),
        ("prefix", Octets),
        ("form", _U8),  # version, fixed when the node is made
        ("blacklist", List),
        ("rate", Rate),
        ("faults", Faults),  # what the next request lists
    ]


class Ledger(_Image):
    """A ledger; its addresses are in lent memory, nine bytes each. 16 bytes."""

    KIND = "L"
    _fields_ = [
        ("kind", _U8),  # 'L'
        ("layout", _U8),
        ("first", _octets(2)),  # lowest address of the range
        ("size", _octets(2)),  # number of addresses
        ("left", _octets(2)),  # free addresses
        ("marks", _octets(8)),  # a bit for each 64 addresses, the lowest in the last byte's lowest bit: whether one is free
    ]


class Proxy(_Image):
    """A join proxy. 26 bytes."""

    KIND = "P"
    _fields_ = [
        ("kind", _U8),  # 'P'
        ("layout", _U8),
        ("key", _octets(16)),
        ("issued", _octets(8)),  # numbers issued under this key, 0 to 4294967296
    ]


class Pledge(_Image):
    """Where a join response goes. 21 bytes."""

    KIND = "G"
    _fields_ = [
        ("kind", _U8),  # 'G'
        ("layout", _U8),
        ("interface_id", _octets(8)),
        ("port", _octets(2)),
        ("token_len", _U8),
        ("token", _octets(8)),
    ]


class Serial(_Image):
    """A payload that arrives in parts; its bytes are in a lent store of 256. 6 bytes."""

    KIND = "S"
    _fields_ = [
        ("kind", _U8),  # 'S'
        ("layout", _U8),
        ("arrived", _octets(2)),  # bytes that arrived, 0 to 256
        ("overrun", _U8),  # 1: a part passed 256
        ("ended", _U8),  # 1: the end was marked
    ]


class Replayed(_Image):
    """What a replay found. 251 bytes."""

    KIND = "T"
    _fields_ = [
        ("kind", _U8),  # 'T'
        ("layout", _U8),
        ("kinds", _octets(8) * 6),  # records by kind, 1 first
        ("refusals", _octets(8) * 22),  # refusals by number, 1 first
        ("switches", _octets(8)),  # from pending to active
        ("longest", _octets(8)),  # longest wait from an accepted start to its accepted join answer, ms
        ("stopped", _U8),  # 0: the whole trace was walked; 1: it stopped at `place`
        ("place", _octets(8)),  # offset of that record; else the trace's length
    ]


# the struct of each kind
KINDS = {
    "Q": Request,
    "C": Configuration,
    "R": Reports,
    "K": FrameKey,
    "N": Node,
    "L": Ledger,
    "P": Proxy,
    "G": Pledge,
    "S": Serial,
    "T": Replayed,
}

# name, use (number, in, state, dst, result), type (bytes, a number's or a struct's name) and fixed length of each parameter
Parameter = Tuple[str, str, Optional[str], Optional[int]]
SIGNATURES: dict[str, tuple[Parameter, ...]] = {
    "layout": (
    ),
    "size": (
        ("kind", "number", None, None),
        ("size", "result", "u32", None),
    ),
    "refusal_name": (
        ("number", "number", None, None),
        ("name", "result", "bytes", 8),
    ),
    "key_usage": (
        ("usage", "number", None, None),
        ("encrypted", "result", "u32", None),
        ("mic_length", "result", "u32", None),
    ),
    "request_read": (
        ("form", "number", None, None),
        ("reading", "number", None, None),
        ("payload", "in", "bytes", None),
        ("out", "result", "Request", None),
    ),
    "configuration_read": (
        ("form", "number", None, None),
        ("reading", "number", None, None),
        ("payload", "in", "bytes", None),
        ("out", "result", "Configuration", None),
    ),
    "request_write": (
        ("form", "number", None, None),
        ("object", "in", "Request", None),
        ("dst", "dst", "bytes", None),
        ("length", "result", "u64", None),
    ),
    "configuration_write": (
        ("form", "number", None, None),
        ("object", "in", "Configuration", None),
        ("dst", "dst", "bytes", None),
        ("length", "result", "u64", None),
    ),
    "configuration_merge": (
        ("first", "in", "Configuration", None),
        ("second", "in", "Configuration", None),
        ("out", "result", "Configuration", None),
    ),
    "node_make": (
        ("form", "number", None, None),
        ("role", "number", None, None),
        ("has_network", "number", None, None),
        ("network", "in", "bytes", None),
        ("node", "result", "Node", None),
    ),
    "node_start": (
        ("node", "state", "Node", None),
        ("time", "number", None, None),
        ("timeout", "number", None, None),
        ("dst", "dst", "bytes", None),
        ("length", "result", "u64", None),
    ),
    "node_poll": (
        ("node", "state", "Node", None),
        ("time", "number", None, None),
        ("due", "result", "u32", None),
    ),
    "node_answer": (
        ("node", "state", "Node", None),
        ("time", "number", None, None),
        ("payload", "in", "bytes", None),
        ("reports", "result", "Reports", None),
    ),
    "node_update": (
        ("node", "state", "Node", None),
        ("time", "number", None, None),
        ("payload", "in", "bytes", None),
        ("reports", "result", "Reports", None),
    ),
    "node_holds": (
        ("node", "in", "Node", None),
        ("time", "number", None, None),
        ("holds", "result", "u32", None),
    ),
    "node_send": (
        ("node", "state", "Node", None),
        ("frame_type", "number", None, None),
        ("key", "result", "FrameKey", None),
    ),
    "node_receive": (
        ("node", "in", "Node", None),
        ("frame_type", "number", None, None),
        ("identifier", "number", None, None),
        ("key", "result", "FrameKey", None),
    ),
    "node_verified": (
        ("node", "state", "Node", None),
        ("frame_type", "number", None, None),
        ("identifier", "number", None, None),
        ("change", "result", "u32", None),
    ),
    "ledger_open": (
        ("first", "number", None, None),
        ("size", "number", None, None),
        ("memory", "in", "bytes", None),
        ("ledger", "result", "Ledger", None),
    ),
    "ledger_grant": (
        ("ledger", "state", "Ledger", None),
        ("memory", "state", "bytes", None),
        ("board", "in", "bytes", 8),
        ("address", "result", "u16", None),
    ),
    "ledger_give_back": (
        ("ledger", "state", "Ledger", None),
        ("memory", "state", "bytes", None),
        ("board", "in", "bytes", 8),
        ("address", "result", "u16", None),
    ),
    "ledger_free": (
        ("ledger", "in", "Ledger", None),
        ("count", "result", "u64", None),
    ),
    "seal": (
        ("key", "in", "bytes", 16),
        ("nonce", "in", "bytes", 13),
        ("associated", "in", "bytes", None),
        ("text", "in", "bytes", None),
        ("dst", "dst", "bytes", None),
        ("length", "result", "u64", None),
    ),
    "unseal": (
        ("key", "in", "bytes", 16),
        ("nonce", "in", "bytes", 13),
        ("associated", "in", "bytes", None),
        ("sealed", "in", "bytes", None),
        ("dst", "dst", "bytes", None),
        ("length", "result", "u64", None),
    ),
    "proxy_make": (
        ("key", "in", "bytes", 16),
        ("proxy", "result", "Proxy", None),
    ),
    "proxy_set_key": (
        ("proxy", "state", "Proxy", None),
        ("key", "in", "bytes", 16),
    ),
    "proxy_issue": (
        ("proxy", "state", "Proxy", None),
        ("interface_id", "in", "bytes", 8),
        ("port", "number", None, None),
        ("token", "in", "bytes", None),
        ("dst", "dst", "bytes", None),
    ),
    "proxy_judge": (
        ("proxy", "in", "Proxy", None),
        ("body", "in", "bytes", None),
        ("pledge", "result", "Pledge", None),
    ),
    "serial_reset": (
        ("serial", "result", "Serial", None),
    ),
    "serial_part": (
        ("serial", "state", "Serial", None),
        ("store", "state", "bytes", None),
        ("part", "in", "bytes", None),
    ),
    "serial_end_request": (
        ("serial", "state", "Serial", None),
        ("store", "in", "bytes", None),
        ("form", "number", None, None),
        ("reading", "number", None, None),
        ("out", "result", "Request", None),
    ),
    "serial_end_configuration": (
        ("serial", "state", "Serial", None),
        ("store", "in", "bytes", None),
        ("form", "number", None, None),
        ("reading", "number", None, None),
        ("out", "result", "Configuration", None),
    ),
    "replay": (
        ("trace", "in", "bytes", None),
        ("node", "result", "Node", None),
        ("out", "result", "Replayed", None),
    ),
}
