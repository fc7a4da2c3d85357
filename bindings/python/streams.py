#!/usr/bin/env python3
"""Plays the recorded streams of the desk tools through the library, and compares with the recorded answers. Most of these were made by
implementations that share nothing with the library; the lines at the edges are those of tools/*_edges.py. Prints `N passed, M failed`.

    streams.py LIBRARY [TOOL ..]        the streams of crates/TOOL, all where none is named
    streams.py LIBRARY TOOL IN OUT      another recorded stream"""
import os
import sys

sys.path.insert(0, os.path.dirname(os.path.abspath(__file__)))
import pothatch as p  # noqa: E402
from pothatch import Library, Refused, number as big  # noqa: E402

CRATES = os.path.join(os.path.dirname(os.path.abspath(__file__)), "..", "..", "crates")
PHASES = ["idle", "waiting", "joined", "gave-up"]


class Unplayed(Exception):
    """A line that no player knows: a fault of this program."""


class Own(Exception):
    """A line that is about the tool alone: a command behind which there is no call, or a state that the tool has and no image."""


def number(word):
    return int(word.lstrip("0") or "0")


def octets(word):
    return b"" if word == "-" else bytes.fromhex(word)


def shown(value):
    return "h'%s'" % bytes(value).hex()


class LedgerPlayer:
    def __init__(self, library):
        self.lib, self.memory, self.lent, self.over = library, bytearray(40000), 36864, False
        self.ledger = p.Ledger(kind=ord("L"), layout=p.LAYOUT)

    def on_memory(self, call, board):
        part = self.memory[: self.lent]
        before = bytes(part), bytes(self.ledger)
        try:
            return "h'%04x'" % call(self.ledger, part, octets(board))
        except Refused:
            if before != (bytes(part), bytes(self.ledger)):
                return "a refused call changed what it was lent"
            raise
        finally:
            self.memory[: self.lent] = part

    def play(self, words):
        name, rest = words[0], words[1:]
        if name in ("free", "show") and self.over and big(self.ledger.left) == 65535:
            raise Own  # an image has two bytes for the count: a larger one stands as 65535 until it moves, and is then cut alike
        if name == "open" and len(rest) == 2:
            self.ledger = self.lib.ledger_open(number(rest[0]), number(rest[1]), self.memory[: self.lent])
            return "opened %d" % self.lib.ledger_free(self.ledger)
        if name == "grant" and len(rest) == 1:
            return "granted " + self.on_memory(self.lib.ledger_grant, rest[0])
        if name == "back" and len(rest) == 1:
            return "freed " + self.on_memory(self.lib.ledger_give_back, rest[0])
        if name == "free" and not rest:
            return "free %d" % self.lib.ledger_free(self.ledger)
        if name == "lend" and len(rest) == 1:
            self.lent = number(rest[0])
            return "lent %d" % self.lent
        if name == "read" and len(rest) == 2:
            at, n = number(rest[0]), number(rest[1])
            return shown(self.memory[at : at + n])
        if name == "write" and len(rest) >= 1:
            at, value = number(rest[0]), octets("".join(rest[1:]) or "-")
            self.memory[at : at + len(value)] = value
            return "set"
        if name == "clear" and not rest:
            self.memory = bytearray(40000)
            return "set"
        if name == "count" and len(rest) == 1:
            count = number(rest[0])
            self.over = count > 65535
            p.put(self.ledger.left, min(count, 65535))
            return "set"
        if name == "marks":
            groups = sum(1 << g for g in {number(w) for w in rest})
            p.put(self.ledger.marks, groups)
            return "set"
        if name == "show" and not rest:
            f, s, n, marks = (big(x) for x in (self.ledger.first, self.ledger.size, self.ledger.left, self.ledger.marks))
            return "first=%d size=%d free=%d marks=[%s]" % (f, s, n, ",".join(str(g) for g in range(64) if marks >> g & 1))
        raise Unplayed


class CipherPlayer:
    def __init__(self, library):
        self.lib, self.store, self.room = library, bytearray(512), 264

    def write(self, call, word, rest):
        part = self.store[: self.room]
        try:
            n = call(octets(rest[0]), octets(rest[1]), octets(rest[2]), octets("".join(rest[3:]) or "-"), part)
            return "%s %s" % (word, shown(part[:n]))
        finally:
            self.store[: self.room] = part

    def play(self, words):
        name, rest = words[0], words[1:]
        if name == "seal" and len(rest) >= 3:
            return self.write(self.lib.seal, "sealed", rest)
        if name == "open" and len(rest) >= 3:
            return self.write(self.lib.unseal, "opened", rest)
        if name == "room" and len(rest) == 1:
            self.room = number(rest[0])
            return "lent %d" % self.room
        if name == "destination" and not rest:
            return shown(self.store[: self.room])
        if name in ("substitute", "expand", "block"):
            raise Own  # parts of AES, which the library does not export
        raise Unplayed


class ProxyPlayer:
    def __init__(self, library):
        self.lib, self.store, self.room, self.proxies = library, bytearray(64), 31, {}

    def proxy(self, word):
        return self.proxies[number(word)]

    def play(self, words):
        name, rest = words[0], words[1:]
        if name == "proxy" and len(rest) == 2:
            i, key = number(rest[0]), octets(rest[1])
            self.proxies[i] = self.lib.proxy_make(key)
            return "made"
        if name == "key" and len(rest) == 2:
            self.lib.proxy_set_key(self.proxy(rest[0]), octets(rest[1]))
            return "set"
        if name == "issue" and len(rest) == 4:
            proxy, interface = self.proxy(rest[0]), octets(rest[1])
            port, token = number(rest[2]), octets(rest[3])
            part, before = self.store[: self.room], bytes(proxy)
            try:
                self.lib.proxy_issue(proxy, interface, port, token, part)
                return "body " + shown(part[:31])
            except Refused:
                if before != bytes(proxy) or part != self.store[: self.room]:
                    return "a refused call changed what it was lent"
                raise
            finally:
                self.store[: self.room] = part
        if name == "judge" and len(rest) >= 1:
            to = self.lib.proxy_judge(self.proxy(rest[0]), octets("".join(rest[1:]) or "-"))
            return "forward %s %d %s" % (shown(to.interface_id), big(to.port), shown(to.token[: to.token_len]))
        if name == "show" and len(rest) == 1:
            proxy = self.proxy(rest[0])
            return "key=%s issued=%d" % (shown(proxy.key), big(proxy.issued))
        if name == "issued" and len(rest) == 2:
            p.put(self.proxy(rest[0]).issued, number(rest[1]))
            return "set"
        if name == "room" and len(rest) == 1:
            self.room = number(rest[0])
            return "lent %d" % self.room
        if name == "destination" and not rest:
            return shown(self.store[: self.room])
        raise Unplayed


# ---- how the tools show values
def shown_key(key):
    text = "%d/%d/%s" % (key.identifier, key.usage, shown(key.value))
    return text + ("/" + shown(key.info[: key.info_len]) if key.info_len else "")


def listed(words):
    return "[%s]" % ",".join(words)


def shown_keys(keys):
    return listed(shown_key(k) for k in keys.keys[: keys.count])


def members(items):
    """The numbers and byte strings that a list's bytes are; other members are left out."""
    data, at, found = bytes(items.bytes[: items.len]), 0, []
    while at < len(data):
        major, low, at = data[at] >> 5, data[at] & 31, at + 1
        size = 1 << (low - 24) if low >= 24 else 0
        n, at = (int.from_bytes(data[at : at + size], "big") if size else low), at + size
        if major == 2:
            found.append(shown(data[at : at + n]))
            at += n
        elif major < 2:
            found.append(str(n if major == 0 else -1 - n))
    return found


def pairs(words):
    return listed("%s/%s" % (words[i], words[i + 1]) for i in range(0, len(words), 2))


def shown_faults(faults):
    return listed("%d/%d" % tuple(e) for e in faults.entry[: faults.count])


def reports_of(c):
    """What was bad in a published configuration, in payload order."""
    reports = {2: c.keys_report, 3: c.address.report, 4: c.jrc.report, 6: c.blacklist.report, 7: c.rate.report}
    return listed("%d/%d" % tuple(e) for e in c.came.entry[: c.came.count] if reports[e[1]] == p.Report.DISCARDED)


def shown_request(q, form):
    def by(report, value):
        return value() if report == p.Report.TAKEN else ("absent" if report == p.Report.ABSENT else "malformed" if form else "discarded")

    text = "accepted role=%d network=%s" % (q.role, by(q.network.report, lambda: shown(q.network.bytes[: q.network.len])))
    if form == p.Version.DRAFT:
        return text + " passed=%d" % big(q.passed)
    unsupported = by(q.unsupported.report, lambda: pairs(members(q.unsupported)))
    return text + " unsupported=%s passed=%d reports=%s" % (unsupported, big(q.passed), shown_faults(q.faults))


def shown_configuration(c, form):
    def by(report, value):
        return value() if report == p.Report.TAKEN else ("absent" if report == p.Report.ABSENT else "malformed" if form else "discarded")

    def octets(o):
        return by(o.report, lambda: shown(o.bytes[: o.len]))

    a = c.address
    text = "accepted keys=%s address=%s lease=%s jrc=%s" % (
        by(c.keys_report, lambda: shown_keys(c.keys)),
        by(a.report, lambda: shown(a.bytes)),
        by(a.report, lambda: str(big(a.lease)) if a.leased else "none"),
        octets(c.jrc),
    )
    if form == p.Version.DRAFT:
        return text + " network=%s prefix=%s passed=%d" % (octets(c.network), octets(c.prefix), big(c.passed))
    return text + " blacklist=%s rate=%s passed=%d reports=%s" % (
        by(c.blacklist.report, lambda: listed(members(c.blacklist))),
        by(c.rate.report, lambda: str(big(c.rate.value))),
        big(c.passed),
        reports_of(c),
    )


def shown_counted(counted):
    count = counted.set.count
    keys = zip(counted.set.keys[:count], counted.counters[:count])
    return listed("%s#%d" % (shown_key(k), big(n)) for k, n in keys) if count else "none"


def shown_node(node):
    a, at = node.address, node.attempt

    def octets(o):
        return shown(o.bytes[: o.len]) if o.report else "none"

    text = "form=new " if node.form else ""
    text += "role=%d phase=%s clock=%d sent=%d" % (node.role, PHASES[at.phase], big(at.clock), big(at.sent))
    text += " timeout=%d count=%d active=%s" % (big(at.timeout), at.count, shown_counted(node.active))
    text += " pending=%s" % shown_counted(node.pending)
    if a.report:
        text += " address=%s lease=%s received=%d" % (shown(a.bytes), big(a.lease) if a.leased else "none", big(node.received))
    else:
        text += " address=none lease=none received=none"
    text += " jrc=%s network=%s" % (octets(node.jrc), octets(node.network))
    if not node.form:
        return text + " prefix=%s" % octets(node.prefix)
    blacklist = listed(members(node.blacklist)) if node.blacklist.report else "none"
    rate = str(big(node.rate.value)) if node.rate.report else "none"
    return text + " blacklist=%s rate=%s reports=%s" % (blacklist, rate, shown_faults(node.faults))


class DecodePlayer:
    def __init__(self, library):
        self.lib, self.store, self.lent, self.serial = library, bytearray(512), 256, library.serial_reset()

    def reading(self, word):
        """Which object, form and reading a word such as strict-new-request names."""
        rest = word[7:] if word.startswith("strict-") else word
        form, rest = (p.Version.PUBLISHED, rest[4:]) if rest.startswith("new-") else (p.Version.DRAFT, rest)
        if rest not in ("request", "configuration"):
            raise Unplayed
        return rest, form, p.Reading.READ_STRICT if word.startswith("strict-") else p.Reading.READ_ANY

    def shown(self, what, form, read):
        return shown_request(read, form) if what == "request" else shown_configuration(read, form)

    def rewrite(self, what, form, read):
        dst = bytearray(b"\xee" * 256)
        write = self.lib.request_write if what == "request" else self.lib.configuration_write
        n = write(form, read, dst)
        if any(b != 0xEE for b in dst[n:]):
            return "bytes after the payload changed"
        return shown(dst[:n])

    def read(self, what, form, strict, payload):
        return getattr(self.lib, what + "_read")(form, strict, payload)

    def merge(self, text):
        if text.count("+") != 1:
            raise Unplayed
        found = []
        for place, word in zip(("first", "second"), text.split("+")):
            try:
                found.append(self.lib.configuration_read(p.Version.DRAFT, p.Reading.READ_ANY, octets(word.replace(" ", "") or "-")))
            except Refused as e:
                return "%s refused %d %s" % (place, e.number, e.name)
        return "merged " + self.rewrite("configuration", p.Version.DRAFT, self.lib.configuration_merge(*found))

    def play(self, words):
        name, rest = words[0], words[1:]
        if name == "head":
            raise Own  # a single CBOR head, which the library does not export
        if name == "merge":
            return self.merge(" ".join(rest))
        if name == "rewrite" and rest:
            what, form, strict = self.reading(rest[0])
            return "wrote " + self.rewrite(what, form, self.read(what, form, strict, octets("".join(rest[1:]) or "-")))
        if name == "store" and len(rest) == 1:
            self.lent = number(rest[0])
            return "lent %d" % self.lent
        if name == "reset" and not rest:
            self.serial = self.lib.serial_reset()
            return "reset"
        if name == "part":
            part = self.store[: self.lent]
            try:
                self.lib.serial_part(self.serial, part, octets("".join(rest) or "-"))
                return "held %d" % big(self.serial.arrived)
            finally:
                self.store[: self.lent] = part
        if name == "end" and len(rest) == 1:
            what, form, strict = self.reading(rest[0])
            end = getattr(self.lib, "serial_end_" + what)
            return self.shown(what, form, end(self.serial, self.store[: self.lent], form, strict))
        what, form, strict = self.reading(name)
        return self.shown(what, form, self.read(what, form, strict, octets("".join(rest) or "-")))


class SimulatePlayer:
    def __init__(self, library):
        self.lib, self.nodes, self.room = library, {}, 256

    def node(self, word):
        return self.nodes[number(word)]

    def make(self, form, rest):
        i, role, network = number(rest[0]), number(rest[1]), "".join(rest[2:])
        self.nodes[i] = self.lib.node_make(form, role, None if network == "-" else octets(network or "-"))
        return "made"

    def start(self, rest):
        dst, node = bytearray(b"\xee" * self.room), self.node(rest[0])
        n = self.lib.node_start(node, number(rest[1]), number(rest[2]), dst)
        return "sent " + shown(dst[:n])

    def deliver(self, call, rest):
        node = self.node(rest[0])
        r = call(node, number(rest[1]), octets("".join(rest[2:]) or "-"))
        words = ["absent", "taken", "malformed" if node.form else "discarded"]
        text = "accepted keys=%s address=%s jrc=%s" % (words[r.keys], words[r.address], words[r.jrc])
        if node.form:
            text += " blacklist=%s rate=%s" % (words[r.blacklist], words[r.rate])
            return text + " passed=%d reports=%s" % (big(r.passed), shown_faults(node.faults))
        return text + " network=%s prefix=%s passed=%d" % (words[r.network], words[r.prefix], big(r.passed))

    def turn(self, rest):
        sender, hearer, kind = self.node(rest[0]), self.node(rest[1]), number(rest[2])
        sent = self.lib.node_send(sender, kind)
        heard = self.lib.node_receive(hearer, kind, sent.key.identifier)
        if bytes(sent.key) != bytes(heard.key):
            return "failed"
        return {p.Change.KEPT: "kept", p.Change.SWITCHED: "switched"}[self.lib.node_verified(hearer, kind, sent.key.identifier)]

    def put(self, node, field, value):
        """The bench command: a value is put into a node by hand."""
        a = node.attempt
        if field in ("role", "count"):
            setattr(node if field == "role" else a, field, number(value[0]))
        elif field == "phase":
            a.phase = PHASES.index(value[0])
        elif field in ("clock", "sent", "timeout"):
            p.put(getattr(a, field), number(value[0]))
        elif field == "received":
            p.put(node.received, number(value[0]))
        elif field == "lease":
            node.address.leased = 0 if value[0] == "none" else 1
            p.put(node.address.lease, 0 if value[0] == "none" else number(value[0]))
        elif field == "address":
            node.address.report = 0 if value[0] == "none" else 1
            if value[0] != "none":
                node.address.bytes[:] = octets(value[0])
        elif field in ("active", "pending"):
            copy = p.CountedSet() if value[0] == "none" else p.CountedSet.from_buffer_copy(bytes(getattr(node, value[0])))
            setattr(node, field, copy)
        elif field == "counter":
            for s in (node.active, node.pending):
                for place in range(s.set.count):
                    if s.set.keys[place].identifier == number(value[0]):
                        p.put(s.counters[place], number(value[1]))
                        return "set"
        return "set"

    def play(self, words):
        name, rest = words[0], words[1:]
        if name in ("node", "new-node"):
            return self.make(p.Version.PUBLISHED if name == "new-node" else p.Version.DRAFT, rest)
        if name == "room":
            self.room = number(rest[0])
            return "lent %d" % self.room
        if name == "start":
            return self.start(rest)
        if name in ("answer", "update"):
            return self.deliver(getattr(self.lib, "node_" + name), rest)
        if name == "turn":
            return self.turn(rest)
        node = self.node(rest[0])
        if name == "poll":
            return [None, "not yet", "send again", "gave up"][self.lib.node_poll(node, number(rest[1]))]
        if name == "holds":
            return "yes" if self.lib.node_holds(node, number(rest[1])) else "no"
        if name == "send":
            sent = self.lib.node_send(node, number(rest[1]))
            return "key %s counter=%d" % (shown_key(sent.key), big(sent.counter))
        if name == "receive":
            return "key " + shown_key(self.lib.node_receive(node, number(rest[1]), number(rest[2])).key)
        if name == "verified":
            return [None, "kept", "switched"][self.lib.node_verified(node, number(rest[1]), number(rest[2]))]
        if name == "show":
            return shown_node(node)
        if name == "set":
            return self.put(node, rest[1], rest[2:])
        raise Unplayed


class ReplayPlayer:
    def __init__(self, library):
        self.lib = library

    def play(self, words):
        if words[0] != "trace":
            raise Unplayed
        node, r = self.lib.replay(octets("".join(words[1:]) or "-"))
        refusals = listed("%d:%d" % (i + 1, big(n)) for i, n in enumerate(r.refusals) if big(n))
        text = "stopped %d" % big(r.place) if r.stopped else "complete"
        text += " records=%s refusals=%s" % ("/".join(str(big(n)) for n in r.kinds), refusals)
        text += " switches=%d wait=%d " % (big(r.switches), big(r.longest))
        return text + (shown_node(node) if node else "node=none")


PLAYERS = {
    "decode": DecodePlayer,
    "simulate": SimulatePlayer,
    "replay": ReplayPlayer,
    "ledger": LedgerPlayer,
    "cipher": CipherPlayer,
    "proxy": ProxyPlayer,
}


def words_of(line):
    """The words of a line, as the tools take them: apart by spaces, one CR at the end left out."""
    return [w for w in (line[:-1] if line.endswith("\r") else line).split(" ") if w]


def answered(given, recorded):
    """The lines of a recorded stream that are answered, each with its answer."""
    answers = iter(open(recorded, encoding="latin-1", newline="\n").read().split("\n"))
    for line in open(given, encoding="latin-1", newline="\n").read().split("\n"):
        words = words_of(line)
        if words and not words[0].startswith("#"):
            yield line, next(answers)


def stream(library, tool, given=None, recorded=None):
    """How many answers agree, and how many do not. Lines about the tool alone are counted apart: those that it does not read (`error`), and
    those that a player calls the tool's own."""
    good = bad = own = 0
    given, recorded = given or os.path.join(CRATES, tool, "stdin"), recorded or os.path.join(CRATES, tool, "stdout")
    player = PLAYERS[tool](library)
    for line, want in answered(given, recorded):
        if want.startswith("error "):
            own += 1
            continue
        try:
            got = player.play(words_of(line))
        except Refused as e:
            got = "refused %d %s" % (e.number, e.name)
        except Own:
            own += 1
            continue
        good, bad = good + (got == want), bad + (got != want)
        if got != want and bad < 4:
            print("%s: %s\n  got  %s\n  want %s" % (tool, line[:300], got[:1000], want[:1000]))
    print("streams: %s: %d answers agree, %d differ, %d lines about the tool alone" % (tool, good, bad, own))
    return good, bad


def main():
    library, words = Library(sys.argv[1] if len(sys.argv) > 1 else None), sys.argv[2:]
    if len(words) == 3 and words[1] not in PLAYERS:
        done = [stream(library, *words)]
    else:
        done = [stream(library, tool) for tool in words or PLAYERS]
    passed = sum(1 for g, b in done if g and not b)
    print("%d passed, %d failed" % (passed, len(done) - passed))
    sys.exit(0 if passed == len(done) else 1)


if __name__ == "__main__":
    main()
