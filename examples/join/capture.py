"""Captures the loopback with dumpcap and has tshark open the capture: it derives the keys from the shared secrets by itself."""
import asyncio
import collections
import os
import shutil
import subprocess

import aiocoap

import extended_tokens
import security

PROTECTED, EXTENDED_TOKEN, DAMAGED, UNPROTECTED = "protected", "extended token", "damaged", "unprotected"


class Capture:
    """A running dumpcap. `reason` says why there is none."""

    def __init__(self, folder, ports):
        self.file, self.ports, self.reason, self.process = os.path.join(folder, "join.pcapng"), ports, None, None
        for program in ("dumpcap", "tshark"):
            if shutil.which(program) is None:
                self.reason = "%s is not installed" % program

    async def start(self):
        if self.reason:
            return
        filter_ = " or ".join("udp port %d" % port for port in self.ports)
        words = ["dumpcap", "-q", "-i", "lo", "-f", filter_, "-w", self.file]
        self.process = subprocess.Popen(words, stdout=subprocess.DEVNULL, stderr=subprocess.DEVNULL)
        for _ in range(50):  # it writes the file's head when it has begun to capture
            await asyncio.sleep(0.1)
            if os.path.exists(self.file) and os.path.getsize(self.file):
                return await asyncio.sleep(0.3)
            if self.process.poll() is not None:
                break
        self.reason = "dumpcap may not capture on the loopback"

    async def stop(self):
        if self.process and self.process.poll() is None:
            await asyncio.sleep(1.0)  # dumpcap reads the kernel's buffer at intervals
            self.process.terminate()
            self.process.wait(10)


def frames(capture, secrets):
    """Each frame: the CoAP message, and what tshark finds inside it, as the inner code and payload, or None."""
    words = ["tshark", "-r", capture.file]
    for port in capture.ports:
        words += ["-d", "udp.port==%d,coap" % port]
    for board, (secret, version) in secrets.items():
        ends = security.PLEDGE_ID[version].hex(), security.JRC_ID.hex()
        for sender, recipient in (ends, ends[::-1]):
            row = '"%s","%s","%s","","%s","AES-CCM-16-64-128 (CCM*)"' % (sender, recipient, secret.hex(), board.hex())
            words += ["-o", "uat:oscore_contexts:" + row]
    words += ["-T", "fields", "-e", "udp.payload", "-e", "oscore.code", "-e", "data.data"]
    for line in subprocess.run(words, capture_output=True, text=True, check=True).stdout.splitlines():
        datagram, code, data = (line.split("\t") + ["", ""])[:3]
        inner = bytes.fromhex("".join(data.split(",")[1:]))  # the first is the sealed text
        yield aiocoap.Message.decode(bytes.fromhex(datagram.replace(":", ""))), (int(code), inner) if code else None


def kind(message, texts):
    """What a message is to tshark, whose version 4.0 has no extended tokens. A damaged message is none that the library sealed."""
    if len(message.token) >= extended_tokens.SHORTEST:
        return EXTENDED_TOKEN
    if message.opt.oscore is None:
        return UNPROTECTED
    return PROTECTED if message.payload in texts else DAMAGED


def compare(capture, secrets):
    """Counts frames by kind, and those of which tshark says something else than the library."""
    texts = {sealed: text for _, _, _, text, sealed in security.LibraryCcm.record}
    count, differ = collections.Counter(), 0
    for message, found in frames(capture, secrets):
        what = kind(message, texts)
        count[what] += 1
        text = texts.get(message.payload)
        expected = (text[0], text.partition(b"\xff")[2]) if text else None
        differ += found != expected and not (what == EXTENDED_TOKEN and found is None)
    return count, differ
