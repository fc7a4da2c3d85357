"""The proved join and rekey software of a 6TiSCH thermostat, and the matching half of its programming fixture.

A `Library` has one method for each function of pothatch.h. It adds no rule of its own: a call that the library refuses raises `Refused`,
with the papers' number and name. An argument that the library cannot be handed raises before the call: `TypeError` for another type, a
buffer that may not be written or a struct of another kind, `ValueError` for an integer outside 0 to 2^64 - 1, a buffer of a wrong fixed
length, or buffers that overlap.

    >>> import pothatch
    >>> lib = pothatch.Library()
    >>> memory = bytearray(100 * pothatch.Limit.PLACE)
    >>> ledger = lib.ledger_open(0x1000, 100, memory)
    >>> hex(lib.ledger_grant(ledger, memory, bytes.fromhex("00124b0014b5d301")))
    '0x1000'
    >>> lib.ledger_open(0x11000, 100, memory)
    Traceback (most recent call last):
    pothatch.Refused: 13 RANGE: an argument outside its limits

Structs are those of pothatch.h: `number(x)` reads a member of several bytes, `put(x, n)` writes it. A member that a struct does not have
raises AttributeError, a number over 255 in a member of one byte ValueError. `Configuration.new()` and `Request.new()` make empty objects. A
parameter is written only if its report is TAKEN, and a lease only if `leased` is 1:

    >>> c = pothatch.Configuration.new()
    >>> c.address.report, c.address.leased = pothatch.Report.TAKEN, 1
    >>> pothatch.put(c.address.bytes, 0x1234)
    >>> pothatch.put(c.address.lease, 3600)
    >>> payload = bytearray(pothatch.Limit.PAYLOAD_MOST)
    >>> payload[: lib.configuration_write(pothatch.Version.DRAFT, c, payload)].hex()
    'a10382421234190e10'

A node, ledger, proxy or serial is a state: calls change it in place. `bytes(state)` is its image; `Node.load(image)` loads one and raises
ValueError for another length, kind or layout. Store the new image before a frame or an option body leaves the board (a ledger's, with its
memory, before the address does), and never return to an older one. A link key that left a node's active set and comes back counts from 0
again: never hand out a key value twice."""
from __future__ import annotations

import ctypes
import os
from typing import Any, Dict, NamedTuple, Optional, Tuple, TypeVar, Union

from . import _api
from ._api import (
    KINDS,
    LAYOUT,
    Address,
    Attempt,
    Change,
    Configuration,
    CountedSet,
    Due,
    Faults,
    FrameKey,
    FrameType,
    Holds,
    Key,
    KeySet,
    Ledger,
    Limit,
    List,
    Node,
    Octets,
    Phase,
    Pledge,
    Proxy,
    Rate,
    Reading,
    Refusal,
    Replayed,
    Report,
    Reports,
    Request,
    Role,
    Serial,
    Version,
)

__version__ = "1.2.0"
__all__ = ["Library", "Refused", "LayoutError", "KeyUsage", "number", "put", "LAYOUT", "KINDS", "RESERVE_MOST"]
__all__ += ["Change", "Due", "FrameType", "Holds", "Limit", "Phase", "Reading", "Refusal", "Report", "Role", "Version"]
__all__ += ["Address", "Attempt", "Configuration", "CountedSet", "Faults", "FrameKey", "Key", "KeySet", "Ledger", "List", "Node", "Octets"]
__all__ += ["Pledge", "Proxy", "Rate", "Replayed", "Reports", "Request", "Serial"]

Readable = Union[bytes, bytearray, memoryview]
Writable = Union[bytearray, memoryview]
_Struct = TypeVar("_Struct", bound=ctypes.Structure)
RESERVE_MOST = 65536  # the most frames that one reservation covers
_NUMBERS: Dict[Optional[str], Any] = {"u16": ctypes.c_uint16, "u32": ctypes.c_uint32, "u64": ctypes.c_uint64}


class Refused(Exception):
    """A refusal: `number`, `name` and `meaning` are the papers'."""

    def __init__(self, number: int) -> None:
        self.number = number
        known = number in _api.MEANINGS
        self.name = Refusal(number).name if known else "OTHER"
        self.meaning = _api.MEANINGS[number] if known else "a refusal that this version of the package does not know"
        super().__init__("%d %s: %s" % (number, self.name, self.meaning))

    def __reduce__(self) -> Tuple[type, Tuple[int]]:
        return type(self), (self.number,)


class LayoutError(ImportError):
    """The shared library has another layout, or other sizes, than this package."""


class KeyUsage(NamedTuple):
    """What a key's usage means for the radio: whether frames are encrypted, and the length of their MIC in bytes."""

    encrypted: bool
    mic_length: int


def number(field: "ctypes.Array[ctypes.c_uint8]") -> int:
    """A member of several bytes as an integer."""
    return int.from_bytes(bytes(field), "big")


def put(field: "ctypes.Array[ctypes.c_uint8]", n: int) -> None:
    """Writes an integer to a member of several bytes; OverflowError if it does not fit."""
    field[:] = n.to_bytes(len(field), "big")


def _integer(name: str, value: object) -> int:
    if isinstance(value, bool) or not isinstance(value, int):
        raise TypeError("%s must be an int, not %s" % (name, type(value).__name__))
    if not 0 <= value < 2**64:
        raise ValueError("%s must be within 0 to 2^64 - 1, not %d" % (name, value))
    return int(value)


def _buffer(name: str, value: object, writable: bool, count: Optional[int]) -> memoryview:
    if not isinstance(value, (bytes, bytearray, memoryview)):
        raise TypeError("%s must be %s, not %s" % (name, "a bytearray" if writable else "bytes", type(value).__name__))
    view = memoryview(value)
    if not view.contiguous:
        raise TypeError("%s must be contiguous" % name)
    view = view.cast("B")
    if writable and view.readonly:
        raise TypeError("%s is written by the call, so it must be a bytearray" % name)
    if count is not None and len(view) != count:
        raise ValueError("%s must have %d bytes, not %d" % (name, count, len(view)))
    return view


def _struct(name: str, value: object, kind: str) -> ctypes.Structure:
    wanted = getattr(_api, kind)
    if not isinstance(value, wanted):
        raise TypeError("%s must be a %s, not %s" % (name, kind, type(value).__name__))
    return value


def _number_result(name: str, value: object, kind: str) -> Tuple[int, int]:
    """Address and length of a number that a call returns."""
    wanted = _NUMBERS[kind]
    if not isinstance(value, wanted):
        raise TypeError("%s must be a %s, not %s" % (name, wanted.__name__, type(value).__name__))
    at, length = ctypes.addressof(value), ctypes.sizeof(wanted)
    if at % length:
        raise ValueError("%s must be aligned to %d bytes" % (name, length))
    return at, length


def _address(view: memoryview) -> int:
    """Where the bytes of a writable view are."""
    return ctypes.addressof(ctypes.c_uint8.from_buffer(view)) if len(view) else 0


class Library:
    """The shared library. `path` names it; without it the one that this package was installed with is loaded."""

    def __init__(self, path: Optional[str] = None) -> None:
        self._c = ctypes.CDLL(path or self._installed())
        for name, signature in _api.SIGNATURES.items():
            function = getattr(self._c, "pothatch_" + name)
            function.restype = ctypes.c_uint32
            function.argtypes = [kind for p in signature for kind in self._kinds(p)]
        if self.layout() != LAYOUT:
            raise LayoutError("the library has layout %d, this package %d" % (self.layout(), LAYOUT))
        for letter, struct in KINDS.items():
            if self.size(ord(letter)) != ctypes.sizeof(struct):
                raise LayoutError("the library's struct %s has another size" % letter)

    @staticmethod
    def _installed() -> str:
        here = os.path.dirname(os.path.abspath(__file__))
        places = [os.path.join(here, "libpothatch.so"), os.path.join(here, "..", "..", "..", "..", "lib", "libpothatch.so")]
        for place in places:
            if os.path.exists(place):
                return place
        raise FileNotFoundError("libpothatch.so is not installed with this package: pass its path to Library()")

    @staticmethod
    def _kinds(parameter: _api.Parameter) -> list:
        name, use, kind, count = parameter
        if use == "number":
            return [ctypes.c_uint64]
        return [ctypes.c_void_p] if kind in _NUMBERS else [ctypes.c_void_p, ctypes.c_uint64]

    def call(self, name: str, *words: object) -> int:
        """Calls a function of pothatch.h by its name without the prefix, with checked arguments, and returns its number. For a number that
        the call returns pass a ctypes integer of its width (c_uint16, c_uint32, c_uint64), for a struct an instance."""
        signature = _api.SIGNATURES[name]
        if len(words) != len(signature):
            raise TypeError("%s takes %d arguments" % (name, len(signature)))
        given: list = []
        spans: list = []
        held: list = []
        for (param, use, kind, count), value in zip(signature, words):
            if use == "number":
                given.append(_integer(param, value))
            elif kind in _NUMBERS:
                at, length = _number_result(param, value, kind)
                given.append(at)
                spans.append((at, at + length, True, param))
            else:
                at, length = self._lend(param, use, kind or "bytes", count, value, held)
                given += [at, length]
                if length:
                    spans.append((at, at + length, use != "in", param))
        self._apart(spans)
        return int(getattr(self._c, "pothatch_" + name)(*given))

    @staticmethod
    def _lend(param: str, use: str, kind: str, count: Optional[int], value: object, held: list) -> Tuple[int, int]:
        """Address and length of an argument; what must live through the call goes to `held`."""
        if kind != "bytes":
            struct = _struct(param, value, kind)
            return ctypes.addressof(struct), ctypes.sizeof(struct)
        view = _buffer(param, value, use != "in", count)
        if view.readonly:
            copy = (ctypes.c_uint8 * max(len(view), 1)).from_buffer_copy(bytes(view) or b"\0")
            held.append(copy)
            return ctypes.addressof(copy), len(view)
        held.append(view)
        return _address(view), len(view)

    @staticmethod
    def _apart(spans: list) -> None:
        """What a call writes may overlap nothing else that it is handed."""
        for i, (a, b, written, one) in enumerate(spans):
            for c, d, also, other in spans[i + 1 :]:
                if (written or also) and a < d and c < b:
                    raise ValueError("%s and %s overlap" % (one, other))

    @staticmethod
    def _judged(answer: int) -> None:
        if answer:
            raise Refused(answer)

    def _returned(self, kind: "type[_Struct]", name: str, *words: object) -> _Struct:
        """A call whose last parameter is a struct that it returns."""
        out = kind()
        self._judged(self.call(name, *words, out))
        return out

    def _value(self, name: str, *words: object) -> int:
        """A call whose last parameter is a number that it returns."""
        out = _NUMBERS[_api.SIGNATURES[name][-1][2] or ""]()
        self._judged(self.call(name, *words, out))
        return out.value

    # ---- the library
    def layout(self) -> int:
        """The layout number of the images."""
        return int(self._c.pothatch_layout())

    def size(self, kind: int) -> int:
        """The size of the struct of a kind, for instance ord("L")."""
        return self._value("size", kind)

    def refusal_name(self, number: int) -> str:
        """The name of a refusal."""
        name = bytearray(8)
        self._judged(self.call("refusal_name", number, name))
        return bytes(name).rstrip(b"\0").decode("ascii")

    def key_usage(self, usage: int) -> KeyUsage:
        """What a key's usage means for the radio."""
        encrypted, mic_length = ctypes.c_uint32(), ctypes.c_uint32()
        self._judged(self.call("key_usage", usage, encrypted, mic_length))
        return KeyUsage(encrypted.value == 1, mic_length.value)

    # ---- payloads; `version` is a Version, `reading` a Reading
    def request_read(self, version: int, reading: int, payload: Readable) -> Request:
        """Reads a join request."""
        return self._returned(Request, "request_read", version, reading, payload)

    def configuration_read(self, version: int, reading: int, payload: Readable) -> Configuration:
        """Reads a configuration."""
        return self._returned(Configuration, "configuration_read", version, reading, payload)

    def request_write(self, version: int, request: Request, dst: Writable) -> int:
        """Writes a join request to `dst` and returns its length."""
        return self._value("request_write", version, request, dst)

    def configuration_write(self, version: int, configuration: Configuration, dst: Writable) -> int:
        """Writes a configuration to `dst` and returns its length."""
        return self._value("configuration_write", version, configuration, dst)

    def configuration_merge(self, first: Configuration, second: Configuration) -> Configuration:
        """Merges two configurations of the draft: each parameter from the second where it is taken there."""
        return self._returned(Configuration, "configuration_merge", first, second)

    # ---- the node; times are milliseconds
    def node_make(self, version: int, role: int, network: Optional[Readable] = None) -> Node:
        """Makes an idle node."""
        return self._returned(Node, "node_make", version, role, 0 if network is None else 1, b"" if network is None else network)

    def node_start(self, node: Node, time: int, timeout: int, dst: Writable) -> int:
        """Starts a join attempt, writes the join request to `dst` and returns its length."""
        return self._value("node_start", node, time, timeout, dst)

    def node_poll(self, node: Node, time: int) -> Due:
        """What is due in the join attempt."""
        return Due(self._value("node_poll", node, time))

    def node_answer(self, node: Node, time: int, payload: Readable) -> Reports:
        """Delivers a join answer, which must have been authenticated."""
        return self._returned(Reports, "node_answer", node, time, payload)

    def node_update(self, node: Node, time: int, payload: Readable) -> Reports:
        """Delivers a parameter update, which must have been authenticated."""
        return self._returned(Reports, "node_update", node, time, payload)

    def node_holds(self, node: Node, time: int) -> bool:
        """Whether the short address holds."""
        return self._value("node_holds", node, time) == Holds.HOLDS

    def node_send(self, node: Node, frame_type: int) -> FrameKey:
        """The key and the counter to send a frame with; the counter rises in the node."""
        return self._returned(FrameKey, "node_send", node, frame_type)

    def node_reserve(self, node: Node, frame_type: int, count: int) -> bytes:
        """Reserves the counters of the next `count` frames of a type, so that the node is stored once for so many frames: returns the image
        of the node as it is after these sendings. Store it; then send up to `count` frames of this type. After a restart continue with the
        stored image: it uses none of these counters again. Reserve and store anew before the next frame when the frames are used up, when a
        frame of the other type is due, and when an accepted start, answer, update or verified frame has changed the node. RANGE: not a
        node, an undefined frame type (both with count 0 too), a count over RESERVE_MOST; SILENT: not so many counters are left."""
        if _integer("count", count) > RESERVE_MOST:
            raise Refused(Refusal.RANGE)
        stored = Node.from_buffer_copy(_struct("node", node, "Node"))
        if count == 0:
            refusal = self.call("node_send", stored, frame_type, FrameKey())  # a trial
            self._judged(refusal if refusal == Refusal.RANGE else 0)
            return bytes(node)
        for _ in range(count):
            self.node_send(stored, frame_type)
        return bytes(stored)

    def node_receive(self, node: Node, frame_type: int, identifier: int) -> FrameKey:
        """The key to receive a frame with."""
        return self._returned(FrameKey, "node_receive", node, frame_type, identifier)

    def node_verified(self, node: Node, frame_type: int, identifier: int) -> Change:
        """The radio verified such a frame: whether the pending set became active."""
        return Change(self._value("node_verified", node, frame_type, identifier))

    # ---- payloads that arrive in parts; `store` is a bytearray of 256 that the caller keeps
    def serial_reset(self) -> Serial:
        """Begins anew."""
        return self._returned(Serial, "serial_reset")

    def serial_part(self, serial: Serial, store: Writable, part: Readable) -> None:
        """Takes one more part."""
        self._judged(self.call("serial_part", serial, store, part))

    def serial_end_request(self, serial: Serial, store: Readable, version: int, reading: int) -> Request:
        """Marks the end and reads what arrived as a join request."""
        return self._returned(Request, "serial_end_request", serial, store, version, reading)

    def serial_end_configuration(self, serial: Serial, store: Readable, version: int, reading: int) -> Configuration:
        """Marks the end and reads what arrived as a configuration."""
        return self._returned(Configuration, "serial_end_configuration", serial, store, version, reading)

    # ---- a recorded trace
    def replay(self, trace: Readable) -> Tuple[Optional[Node], Replayed]:
        """Replays a trace: the node, if the trace made one, and what was found. Never send with that node: its counters are 0."""
        node, out = Node(), Replayed()
        self._judged(self.call("replay", trace, node, out))
        return (node if node.kind else None), out

    # ---- the ledger; its memory, nine bytes an address, is a bytearray that the caller keeps
    def ledger_open(self, first: int, size: int, memory: Readable) -> Ledger:
        """Opens a ledger over memory that may hold earlier grants of the same range; for a fresh one the memory is all 0."""
        return self._returned(Ledger, "ledger_open", first, size, memory)

    def ledger_grant(self, ledger: Ledger, memory: Writable, board: Readable) -> int:
        """Grants the board the lowest free address, or the one that it holds."""
        return self._value("ledger_grant", ledger, memory, board)

    def ledger_give_back(self, ledger: Ledger, memory: Writable, board: Readable) -> int:
        """Takes the board's address back and returns it."""
        return self._value("ledger_give_back", ledger, memory, board)

    def ledger_free(self, ledger: Ledger) -> int:
        """How many addresses are free."""
        return self._value("ledger_free", ledger)

    # ---- AES-CCM-16-64-128
    def seal(self, key: Readable, nonce: Readable, associated: Readable, text: Readable, dst: Writable) -> int:
        """Seals a text into `dst` and returns the length. Use each nonce once under a key."""
        return self._value("seal", key, nonce, associated, text, dst)

    def unseal(self, key: Readable, nonce: Readable, associated: Readable, sealed: Readable, dst: Writable) -> int:
        """Opens a sealed text into `dst` and returns the length."""
        return self._value("unseal", key, nonce, associated, sealed, dst)

    # ---- the join proxy
    def proxy_make(self, key: Readable) -> Proxy:
        """Makes a join proxy that has issued nothing. Never use a key that a proxy had before."""
        return self._returned(Proxy, "proxy_make", key)

    def proxy_set_key(self, proxy: Proxy, key: Readable) -> None:
        """Sets a key that no proxy had before; numbers begin at 0 again."""
        self._judged(self.call("proxy_set_key", proxy, key))

    def proxy_issue(self, proxy: Proxy, interface_id: Readable, port: int, token: Readable, dst: Writable) -> None:
        """Issues the option body for a pledge into the first 31 bytes of `dst`."""
        self._judged(self.call("proxy_issue", proxy, interface_id, port, token, dst))

    def proxy_judge(self, proxy: Proxy, body: Readable) -> Pledge:
        """Whom a response with this body goes to."""
        return self._returned(Pledge, "proxy_judge", proxy, body)
