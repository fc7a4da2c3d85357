#!/usr/bin/env python3
"""Tries `ledger --journal FILE`: kills it at random moments, cuts and changes its journal byte by byte, fills the disk, and names other files.

What is checked comes from what the tool printed and from the format of the journal (docs/TOOLS.md), read here by zlib's CRC-32.
"""
import os
import random
import resource
import shutil
import signal
import subprocess
import sys
import tempfile
import time
import zlib

ROOT = os.path.dirname(os.path.dirname(os.path.abspath(__file__)))
LEDGER = os.path.join(ROOT, "target", "bin", "ledger")
FIRST, SIZE = 4096, 600
KILLS = 200


def board(n):
    """The EUI-64 of the n-th board of one maker."""
    return "00124b0014b5%04x" % n


def run(path, lines, words=(), **options):
    """What the tool prints, line by line, and what it writes to standard error."""
    text = "".join(line + "\n" for line in lines)
    done = subprocess.run([LEDGER, "--journal", path, *words], input=text, capture_output=True, text=True, timeout=60, **options)
    return done.stdout.splitlines(), done.stderr


def fail(*words):
    sys.exit(" ".join(str(word) for word in words))


# ---- a shift that is killed


class Shift:
    """What boards were told. A command that was not answered when the tool was killed may have been carried out or not."""

    def __init__(self):
        self.told = {}
        self.new = 0
        self.doubt = set()

    def command(self, chance):
        known = sorted(self.told)
        draw = chance.random()
        if known and draw < 0.1:
            return "back " + chance.choice(known)
        if known and draw < 0.2:
            return "grant " + chance.choice(known)
        self.new += 1
        return "grant " + board(self.new % SIZE)

    def answered(self, command, answer):
        name, owner = command.split()
        if answer.startswith("granted "):
            address = answer[8:]
            holders = [b for b, a in self.told.items() if a == address and b != owner]
            if holders:
                fail(address, "was granted to", owner, "and", holders[0])
            if self.told.get(owner, address) != address and owner not in self.doubt:
                fail(owner, "held", self.told[owner], "and was granted", address)
            self.told[owner] = address
            self.doubt.discard(owner)
        elif answer.startswith("freed "):
            if owner in self.told and self.told[owner] != answer[6:]:
                fail(owner, "held", self.told[owner], "and gave back", answer[6:])
            self.told.pop(owner, None)
            self.doubt.discard(owner)
        elif name == "back" and answer == "refused 18 UNKNOWN":
            if owner in self.told and owner not in self.doubt:
                fail("the grant of", self.told[owner], "to", owner, "was lost")
            self.told.pop(owner, None)
        elif answer != "refused 17 FULL":
            fail(command, "was answered", answer)

    def unanswered(self, command):
        name, owner = command.split()
        if name == "back":
            self.doubt.add(owner)
            self.told.pop(owner, None)


def killed_once(path, shift, chance, first):
    """Starts the tool, has some commands answered, sends a few more and kills it at a random moment."""
    tool = subprocess.Popen([LEDGER, "--journal", path], stdin=subprocess.PIPE, stdout=subprocess.PIPE, text=True, bufsize=1)
    if first:
        tool.stdin.write("open %d %d\n" % (FIRST, SIZE))
        tool.stdin.flush()
    line = tool.stdout.readline()
    while line.startswith("dropped"):
        line = tool.stdout.readline()
    if not line.startswith("opened" if first else "resumed"):
        fail("the tool began with", repr(line))
    if not first and int(line.split("held=")[1].split()[0]) < len(shift.told):
        fail("grants were lost:", line, len(shift.told), "boards were told an address")
    for _ in range(chance.randrange(8)):
        command = shift.command(chance)
        tool.stdin.write(command + "\n")
        tool.stdin.flush()
        shift.answered(command, tool.stdout.readline().rstrip("\n"))
    commands = [shift.command(chance) for _ in range(chance.randrange(1, 12))]
    tool.stdin.write("".join(command + "\n" for command in commands))
    tool.stdin.flush()
    time.sleep(chance.random() * 0.003)
    tool.send_signal(signal.SIGKILL)
    left = tool.stdout.read()
    answers = left.split("\n")[:-1]
    tool.wait()
    tool.stdin.close()
    for command, answer in zip(commands, answers):
        shift.answered(command, answer)
    for command in commands[len(answers):]:
        shift.unanswered(command)
    os.rmdir(path + ".lock")


def kills(folder):
    chance = random.Random(20261118)
    path, shift = os.path.join(folder, "killed"), Shift()
    for i in range(KILLS):
        killed_once(path, shift, chance, i == 0)
    shown, _ = run(path, ["list"])
    listed = shown[-1][len("list ["):-1].split(",")
    pairs = dict(reversed(pair.split("=")) for pair in listed if pair)
    for owner, address in shift.told.items():
        if pairs.get("h'%s'" % owner) != address:
            fail("the grant of", address, "to", owner, "was lost")
    if len(set(pairs.values())) != len(listed):
        fail("an address is listed twice")
    if len(shift.told) < 200:
        fail("the shift was too short:", len(shift.told), "boards")
    boards = [board(n) for n in range(SIZE)]
    shown, _ = run(path, ["grant " + owner for owner in boards])
    for owner, answer in zip(boards, shown[1:]):
        shift.answered("grant " + owner, answer)
    if len(set(shift.told.values())) != SIZE:
        fail(len(set(shift.told.values())), "addresses for", SIZE, "boards")


# ---- a small journal, cut and changed byte by byte


def journal_state(data):
    """What a prefix of a journal comes to: its whole bytes, the holders and the last check."""
    whole, held, check = 16, {}, zlib.crc32(data[:12])
    while whole + 16 <= len(data):
        record = data[whole:whole + 16]
        check = zlib.crc32(record[:12], check)
        if check != int.from_bytes(record[12:], "big"):
            fail("the check at", whole, "is not that of zlib")
        if record[0] == 1:
            held[record[9:11].hex()] = record[1:9].hex()
        else:
            held.pop(record[9:11].hex())
        whole += 16
    return whole, held, check


def expected(data):
    if len(data) < 16:
        return (["dropped bytes=%d at=0" % len(data)] if data else []) + ["list []"]
    whole, held, check = journal_state(data)
    lines = ["dropped bytes=%d at=%d" % (len(data) - whole, whole)] if whole < len(data) else []
    lines.append("resumed first=%d size=%d held=%d free=%d check=h'%08x'" % (FIRST, SIZE, len(held), SIZE - len(held), check))
    return lines + ["list [%s]" % ",".join("h'%s'=h'%s'" % pair for pair in sorted(held.items()))]


def written(path, data):
    with open(path, "wb") as f:
        f.write(data)


def small_journal(folder):
    path = os.path.join(folder, "small")
    run(path, ["open %d %d" % (FIRST, SIZE), "grant " + board(1), "grant " + board(2), "back " + board(1), "grant " + board(3), "grant " + board(2)])
    with open(path, "rb") as f:
        return f.read()


def cuts(folder, data):
    path = os.path.join(folder, "cut")
    for n in range(len(data) + 1):
        written(path, data[:n])
        shown, said = run(path, ["list"])
        if (shown, said) != (expected(data[:n]), ""):
            fail("cut to", n, "bytes:", shown, said, "expected", expected(data[:n]))
        if os.path.getsize(path) != (n - n % 16):
            fail("cut to", n, "bytes, the file was left with", os.path.getsize(path))


def changes(folder, data):
    path = os.path.join(folder, "changed")
    for i in range(len(data)):
        for flip in (0x01, 0x80, 0xff):
            changed = data[:i] + bytes([data[i] ^ flip]) + data[i + 1:]
            written(path, changed)
            shown, _ = run(path, ["grant " + board(9), "list"])
            if shown != ["refused 23 DAMAGED at=%d" % (i - i % 16)]:
                fail("byte", i, "changed:", shown)
            with open(path, "rb") as f:
                if f.read() != changed:
                    fail("byte", i, "changed: the file was written")
    for at in range(16, len(data), 16):
        written(path, data[:at] + bytes(16) + data[at + 16:])
        shown, _ = run(path, ["list"])
        last = at + 16 == len(data)
        want = ["dropped bytes=16 at=%d" % at] + expected(data[:at]) if last else ["refused 23 DAMAGED at=%d" % at]
        if shown != want:
            fail("zeros at", at, ":", shown)
        written(path, data[:at] + data[at + 16:])
        shown, _ = run(path, ["list"])
        if not last and shown != ["refused 23 DAMAGED at=%d" % at]:
            fail("the record at", at, "taken out:", shown)


# ---- files that cannot be written


def limited():
    signal.signal(signal.SIGXFSZ, signal.SIG_IGN)
    resource.setrlimit(resource.RLIMIT_FSIZE, (56, 56))


def full_disk(folder):
    path = os.path.join(folder, "full")
    shown, said = run(path, ["open %d %d" % (FIRST, SIZE)] + ["grant " + board(n) for n in range(5)], preexec_fn=limited)
    if shown != ["opened 600", "granted h'1000'", "granted h'1001'"] or "was not written" not in said:
        fail("a full disk:", shown, said)
    shown, _ = run(path, ["grant " + board(7)])
    if shown[0] != "dropped bytes=8 at=48" or shown[-1] != "granted h'1002'":
        fail("after a full disk:", shown)


def nobody():
    os.setgid(65534)
    os.setuid(65534)


def other_files(folder, data):
    path = os.path.join(folder, "other")
    for content in (b"addresses", b"addresses of the second shift\n"):
        written(path, content)
        shown, _ = run(path, ["open 4096 600", "grant " + board(1)])
        with open(path, "rb") as f:
            if shown != ["refused 23 DAMAGED at=0"] or f.read() != content:
                fail("a file of another kind:", shown)
    os.mkdir(os.path.join(folder, "folder"))
    shown, said = run(os.path.join(folder, "folder"), ["open 4096 600"])
    if shown or "Is a directory" not in said:
        fail("a folder:", shown, said)
    written(path, data)
    os.chmod(path, 0o444)
    os.chmod(folder, 0o777)
    shown, said = run(path, ["grant " + board(1)], preexec_fn=nobody if os.geteuid() == 0 else None)
    if shown or "ermission denied" not in said:
        fail("a read-only file:", shown, said)


def commands(folder, data):
    path = os.path.join(folder, "small")
    shown, _ = run(path, ["open 4096 601", "open 4096 600", "write 0 01", "clear", "lend 9", "count 1", "marks 1", "who 1001", "holds " + board(3)])
    want = ["error range", "opened 598"] + ["error journal"] * 5 + ["held h'%s'" % board(2), "holds h'1000'"]
    if shown[1:] != want:
        fail("commands:", shown, "expected", want)
    holder = subprocess.Popen([LEDGER, "--journal", path], stdin=subprocess.PIPE, stdout=subprocess.PIPE, text=True)
    holder.stdin.write("free\n")
    holder.stdin.flush()
    holder.stdout.readline()
    shown, said = run(path, ["grant " + board(5)])
    if shown or "File exists" not in said or "rmdir" not in said:
        fail("a second process:", shown, said)
    holder.communicate()
    shown, _ = run(path, ["free"])
    if shown[-1] != "free 598":
        fail("after the second process:", shown)


def fixtures(folder):
    given = []
    for k in range(1, 5):
        shown, _ = run(os.path.join(folder, "fixture%d" % k), ["open 4096 601"] + ["grant " + board(n) for n in range(151)], ["--fixture", str(k), "4"])
        if shown[0] != "opened 150" or shown[-1] != "refused 17 FULL":
            fail("fixture", k, ":", shown[0], shown[-1])
        given += shown[1:-1]
    if len(set(given)) != 600:
        fail("four fixtures granted", len(set(given)), "addresses")
    for k in ("0", "5", "x"):
        shown, _ = run(os.path.join(folder, "fixture"), ["open 4096 600"], ["--fixture", k, "4"])
        if shown != ["refused 13 RANGE"]:
            fail("fixture", k, "of 4:", shown)


def main():
    if not os.path.exists(LEDGER):
        sys.exit("target/bin/ledger is not built")
    folder = tempfile.mkdtemp()
    try:
        data = small_journal(folder)
        commands(folder, data)
        cuts(folder, data)
        changes(folder, data)
        full_disk(folder)
        fixtures(folder)
        other_files(folder, data)
        kills(folder)
    finally:
        shutil.rmtree(folder)


main()
