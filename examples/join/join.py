#!/usr/bin/env python3
"""Boards join over CoAP and OSCORE on the loopback. `run` in this folder is the command; README.md says what it needs."""
import asyncio
import os
import shutil
import socket
import subprocess
import sys
import tempfile
import time

sys.dont_write_bytecode = True
import aiocoap  # noqa: E402

import capture  # noqa: E402
import endpoints  # noqa: E402
import extended_tokens  # noqa: E402
import join_proxy  # noqa: E402
import library  # noqa: E402
import security  # noqa: E402
from endpoints import say  # noqa: E402

HOST = "::1"
NETWORK = bytes.fromhex("cafe")
FIRST_KEY = (1, bytes.fromhex("e6bf4287c2d7618d6a9687445ffd33e6"))
SECOND_KEY = (2, bytes(range(16)))
LEASE = 24
PATIENCE = 0.5  # seconds that a pledge waits before its clock is moved on
SILENCE = 0.2  # seconds after which no response is expected to arrive
LONGEST_WAIT = 10  # seconds, where one is expected


def board(number, version):
    """A board's EUI-64, its secret and its version."""
    return bytes.fromhex("00124b0014b5d3%02x" % number), (bytes([number]) * 16, version)


BOARDS = dict([board(1, "draft"), board(2, "published"), board(3, "draft"), board(4, "published")])
AIOCOAP, LIBCOAP = list(BOARDS)[:2], list(BOARDS)[2:]


class Checks:
    def __init__(self):
        self.passed, self.failed, self.skipped = 0, 0, []

    def __call__(self, what, good):
        if good:
            self.passed += 1
        else:
            self.failed += 1
        say("", "ok    " if good else "FAILED", what)

    def skip(self, reason):
        self.skipped.append(reason)
        say("", "skipped:", reason)

    def __str__(self):
        return "; skipped: ".join(["%d passed, %d failed" % (self.passed, self.failed), *self.skipped])


check = Checks()


def free_port():
    with socket.socket(socket.AF_INET6, socket.SOCK_DGRAM) as s:
        s.bind((HOST, 0))
        return s.getsockname()[1]


class Network:
    """A JRC and two join proxies, one of each version."""

    async def open(self):
        contexts = [security.Context("JRC", b, *BOARDS[b]) for b in BOARDS]
        self.jrc = endpoints.Jrc(contexts, NETWORK, FIRST_KEY, LEASE)
        self.jrc_port = free_port()
        self.jrc_end = await aiocoap.Context.create_server_context(self.jrc, bind=(HOST, self.jrc_port))
        self.proxies = {version: join_proxy.JoinProxy((HOST, self.jrc_port), version) for version in ("draft", "published")}
        self.proxy_ports = {version: await proxy.open(HOST) for version, proxy in self.proxies.items()}

    def proxy(self, version):
        return "[%s]:%d" % (HOST, self.proxy_ports[version])

    async def close(self):
        for proxy in self.proxies.values():
            proxy.close()
        await self.jrc_end.shutdown()


async def joins(network, name, eui, port, lost):
    """A board joins, loses requests, and is updated to a second key set. Returns it with its CoAP end."""
    version = BOARDS[eui][1]
    say("", "--- %s: %s version, %d request(s) lost" % (name, version, lost))
    pledge = endpoints.Pledge(name, security.Context("pledge", eui, *BOARDS[eui]), NETWORK)
    end = await aiocoap.Context.create_server_context(pledge, bind=(HOST, port))
    network.proxies[version].to_lose = lost
    check("it joins", await pledge.join(end, network.proxy(version), PATIENCE))
    check("it has the address that the ledger granted", pledge.node.address() == network.jrc.ledger.grant(eui))
    check("a beacon under the first key set switches it", pledge.node.verified("beacon", FIRST_KEY[0]))
    check("it sends under the first key set", pledge.node.send("data") == (FIRST_KEY, 0))
    update = library.configuration(version, SECOND_KEY)
    code = await network.jrc.update(network.jrc_end, eui, "[%s]:%d" % (HOST, port), update)
    check("it takes an update with a second key set", code == aiocoap.CHANGED)
    check("it still sends under the first", pledge.node.send("data") == (FIRST_KEY, 1))
    check("a frame under the second key set switches it", pledge.node.verified("data", SECOND_KEY[0]))
    check("it sends under the second", pledge.node.send("data") == (SECOND_KEY, 0))
    before = pledge.node.image()
    code = await network.jrc.update(network.jrc_end, eui, "[%s]:%d" % (HOST, port), update[:-1])
    check("an update that ends early gets 4.00", code == aiocoap.BAD_REQUEST)
    check("and leaves the node as it was", pledge.node.image() == before)
    return pledge, end


class Wire:
    """A socket that sends datagrams to the JRC as they are and keeps what comes back."""

    async def open(self, network):
        self.heard = []
        self.target = (HOST, network.jrc_port)
        self.side = await join_proxy.bound(lambda message, source: self.heard.append(message), HOST)

    async def answered(self, message, wait, target=None):
        """Whether a datagram comes back."""
        before, end = len(self.heard), time.monotonic() + wait
        self.side.sendto(message.encode(), target or self.target)
        while len(self.heard) == before and time.monotonic() < end:
            await asyncio.sleep(0.02)
        return len(self.heard) > before


async def drops(network, pledge, wire):
    """What the JRC and the proxy must drop without a word."""
    say("", "--- what must be dropped")
    request = library.Node("draft", NETWORK).start(0)
    outer, _ = pledge.protected(request)
    outer.mid, outer.token = 1, b"\1"
    check("a protected request is answered", await wire.answered(outer, LONGEST_WAIT))
    outer.mid = 2
    check("the same request under a new message identifier is dropped", not await wire.answered(outer, SILENCE))
    damaged, _ = pledge.protected(request)
    damaged.mid, damaged.token, damaged.payload = 3, b"\2", damaged.payload[:-1] + bytes([damaged.payload[-1] ^ 1])
    check("a damaged request is dropped", not await wire.answered(damaged, SILENCE))
    plain = aiocoap.Message(code=aiocoap.POST, uri_path=[endpoints.PATH], payload=request, mtype=aiocoap.NON, mid=4)
    check("an unprotected request is dropped", not await wire.answered(plain, SILENCE))
    reasons = ["ReplayError", "ProtectionInvalid", "NotAProtectedMessage"]
    check("each for its own reason", network.jrc.dropped == reasons)
    response = wire.heard[0]
    response.opt.add_option(endpoints.STATELESS_PROXY.create_option(value=bytes(31)))
    back = network.proxies["draft"].jrc_side.get_extra_info("sockname")[:2]
    check("a response whose option the proxy did not issue is dropped", not await wire.answered(response, SILENCE, back))


async def refuses(network, pledge, end):
    """Bad requests under a good seal."""
    say("", "--- what must be refused")
    free = network.jrc.ledger.free()
    for what, payload in (("that ends early", "a105"), ("with role 2", "a201020542cafe"), ("without a network identifier", "a0"),
                          ("for another network", "a10542beef")):  # fmt: skip
        outer, request_id = pledge.protected(bytes.fromhex(payload))
        outer.opt.proxy_scheme, outer.unresolved_remote = None, "[%s]:%d" % (HOST, network.jrc_port)
        inner, _ = pledge.context.unprotect(await end.request(outer, handle_blockwise=False).response, request_id)
        check("a request %s gets 4.00, protected" % what, inner.code == aiocoap.BAD_REQUEST)
    check("the ledger granted nothing for them", network.jrc.ledger.free() == free)


def libcoap_client():
    """libcoap's example client, if it has OSCORE."""
    for words in filter(None, (os.environ.get("COAP_CLIENT"), "coap-client-openssl", "coap-client-gnutls", "coap-client")):
        words = words.split()
        if shutil.which(words[0]):
            usage = subprocess.run([*words, "-h"], capture_output=True, text=True)
            if "[-E " in usage.stdout + usage.stderr:
                return words
    return None


async def libcoap_joins(network, client, folder, eui):
    """A pledge whose CoAP and OSCORE are libcoap's and OpenSSL's; the node is the library's."""
    secret, version = BOARDS[eui]
    say("", "--- a pledge on libcoap: %s version" % version)
    node = library.Node(version, NETWORK)
    files = {name: os.path.join(folder, name) for name in ("context", "request", "response")}
    with open(files["context"], "w") as f:
        f.write('master_secret,hex,"%s"\nid_context,hex,"%s"\n' % (secret.hex(), eui.hex()))
        f.write('sender_id,hex,"%s"\nrecipient_id,ascii,"JRC"\n' % security.PLEDGE_ID[version].hex())
        f.write("aead_alg,integer,10\nhkdf_alg,integer,-10\nrfc8613_b_1_2,bool,false\n")
    with open(files["request"], "wb") as f:
        f.write(node.start(0))
    proxy = "coap://" + network.proxy(version)
    options = ["-N", "-m", "post", "-B", "3", "-E", files["context"], "-f", files["request"], "-o", files["response"], "-P", proxy]
    # libcoap 4.3.4 sends a path of the URI twice, so the path is given as an option.
    target = ["-O", "11," + endpoints.PATH, "coap://" + endpoints.HOST]
    quiet = subprocess.DEVNULL
    process = await asyncio.create_subprocess_exec(*client, *options, *target, stdout=quiet, stderr=quiet)
    await asyncio.wait_for(process.wait(), 15)
    if os.path.exists(files["response"]):
        with open(files["response"], "rb") as f:
            node.answer(1000, f.read())
        os.remove(files["response"])
    check("it joins and has the address that the ledger granted", node.address() == network.jrc.ledger.grant(eui))


def captured(tap):
    say("", "--- the capture, opened by tshark")
    if tap.reason:
        return check.skip(tap.reason)
    count, differ = capture.compare(tap, BOARDS)
    say("tshark", ", ".join("%s %d" % pair for pair in sorted(count.items())))
    check("tshark finds the codes and payloads that the library found", differ == 0 and count[capture.PROTECTED] > 0)
    check("it opens neither the damaged nor the unprotected request", count[capture.DAMAGED] == count[capture.UNPROTECTED] == 1)


async def story(folder):
    network, wire, client = Network(), Wire(), libcoap_client()
    await network.open()
    await wire.open(network)
    node_ports = [free_port(), free_port()]
    tap = capture.Capture(folder, [network.jrc_port, *network.proxy_ports.values(), *node_ports])
    await tap.start()
    pledge, end = await joins(network, "node 1", AIOCOAP[0], node_ports[0], 1)
    _, other_end = await joins(network, "node 2", AIOCOAP[1], node_ports[1], 0)
    await drops(network, pledge, wire)
    await refuses(network, pledge, end)
    if client:
        for eui in LIBCOAP:
            await libcoap_joins(network, client, folder, eui)
    else:
        say("", "--- pledges on libcoap")
        check.skip("libcoap's client with OSCORE is not installed")
    await tap.stop()
    captured(tap)
    say("", "--- the cipher")
    check("%d sealings and openings equal those of python3-cryptography" % len(security.LibraryCcm.record),
          security.agrees_with_cryptography())  # fmt: skip
    check("the ledger counts the boards that joined", network.jrc.ledger.free() == 100 - (4 if client else 2))
    wire.side.close()
    for e in (end, other_end):
        await e.shutdown()
    await network.close()


def main():
    extended_tokens.install()
    with tempfile.TemporaryDirectory(prefix="join.") as folder:
        asyncio.run(story(folder))
    print(check)
    return 1 if check.failed else 0


if __name__ == "__main__":
    sys.exit(main())
