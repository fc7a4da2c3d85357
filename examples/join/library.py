"""What the join needs of the proved library. This is the only module here that knows the Python binding.

POTHATCH_LIBRARY names the shared library, POTHATCH_BINDING the folder of the binding where it is not bindings/python."""
import os
import sys

sys.dont_write_bytecode = True
ROOT = os.path.dirname(os.path.dirname(os.path.dirname(os.path.abspath(__file__))))
sys.path.insert(0, os.environ.get("POTHATCH_BINDING", os.path.join(ROOT, "bindings", "python")))
import pothatch  # noqa: E402

_calls = pothatch.Library(os.environ.get("POTHATCH_LIBRARY", os.path.join(ROOT, "target", "join", "lib", "libpothatch.so")))
_VERSION = {"draft": pothatch.Version.DRAFT, "published": pothatch.Version.PUBLISHED}
_FRAME = {"beacon": pothatch.FrameType.BEACON, "data": pothatch.FrameType.DATA}
_FIRST_TIMEOUT = 10000  # ms

Refused = pothatch.Refused


def _filled(size, call, *words):
    """The bytes that a call writes into a destination of this size."""
    destination = bytearray(size)
    return bytes(destination[: call(*words, destination)])


def seal(key, nonce, associated, text):
    return _filled(len(text) + 8, _calls.seal, key, nonce, associated, text)


def unseal(key, nonce, associated, sealed):
    return _filled(max(len(sealed) - 8, 0), _calls.unseal, key, nonce, associated, sealed)


def requested_network(version, payload):
    """Reads a join request and returns its network identifier."""
    network = _calls.request_read(_VERSION[version], pothatch.Reading.READ_ANY, payload).network
    return bytes(network.bytes[: network.len])


def configuration(version, key, address=None, lease=None):
    """Writes a configuration with one key, (identifier, value), and an address, leased or not."""
    c = pothatch.Configuration(kind=ord("C"), layout=pothatch.LAYOUT, keys_report=pothatch.Report.TAKEN)
    c.keys.count, c.keys.keys[0].identifier = 1, key[0]
    c.keys.keys[0].value[:] = key[1]
    if address is not None:
        c.address.report = pothatch.Report.TAKEN
        c.address.bytes[:] = address
    if lease is not None:
        c.address.leased = 1
        pothatch.put(c.address.lease, lease)
    return _filled(256, _calls.configuration_write, _VERSION[version], c)


class Ledger:
    """A ledger of short addresses with its memory."""

    def __init__(self, first, size):
        self._memory = bytearray(pothatch.Limit.PLACE * size)
        self._image = _calls.ledger_open(first, size, self._memory)

    def grant(self, board):
        return _calls.ledger_grant(self._image, self._memory, board).to_bytes(2, "big")

    def free(self):
        return _calls.ledger_free(self._image)


class Node:
    """One node. Times are milliseconds."""

    def __init__(self, version, network):
        self._image = _calls.node_make(_VERSION[version], pothatch.Role.NODE, network)

    def start(self, time):
        """Starts a join attempt and returns the join request."""
        return _filled(pothatch.Limit.REQUEST_MOST, _calls.node_start, self._image, time, _FIRST_TIMEOUT)

    def sends_again(self, time):
        return _calls.node_poll(self._image, time) == pothatch.Due.DUE_SEND

    def answer(self, time, payload):
        _calls.node_answer(self._image, time, payload)

    def update(self, time, payload):
        _calls.node_update(self._image, time, payload)

    def verified(self, frame, identifier):
        """Tells the node that the radio verified a frame under this key. Returns whether the node switched key sets."""
        return _calls.node_verified(self._image, _FRAME[frame], identifier) == pothatch.Change.SWITCHED

    def send(self, frame):
        """The key to send a frame with, as (identifier, value), and the frame counter."""
        k = _calls.node_send(self._image, _FRAME[frame])
        return (k.key.identifier, bytes(k.key.value)), pothatch.number(k.counter)

    def address(self):
        return bytes(self._image.address.bytes) if self._image.address.report == pothatch.Report.TAKEN else None

    def image(self):
        return bytes(self._image)


class JoinProxy:
    """The state of a stateless join proxy: its key and the next number."""

    def __init__(self, key):
        self._image = _calls.proxy_make(key)

    def issue(self, interface, port, token):
        body = bytearray(pothatch.Limit.BODY)
        _calls.proxy_issue(self._image, interface, port, token, body)
        return bytes(body)

    def judge(self, body):
        """Where a response goes: interface identifier, port, token."""
        pledge = _calls.proxy_judge(self._image, body)
        return bytes(pledge.interface_id), pothatch.number(pledge.port), bytes(pledge.token[: pledge.token_len])
