#!/usr/bin/env python3
"""Adds to crates/simulate/stdin and stdout, after the vectors, the stories of examples/ with the answers that are beside them, the networks of
tools/rekey.py, and lines at the edges of the tool's rules: missing and extra words, numbers and bytes around their limits, `-`, lines far longer
than any buffer, the bench command, and nodes of the published form.

What they are answered follows from the rules of the desk tools, document 01 and docs/RFC9031.md, by hand: nothing is taken from the program.
"""
import os

from rekey import networks, payload
from splice import ROOT, splice

COMMAND, NUMBER, HEX, NODE, KEY = "error command", "error number", "error hex", "error node", "error key"
RANGE, PHASE, LONG, SILENT, CLOCK = "refused 13 RANGE", "refused 16 PHASE", "refused 15 LONG", "refused 14 SILENT", "refused 11 CLOCK"
MOST = 2**64 - 1
FAR = 66000  # longer than the buffer that the tool reads through


def fresh(role, network, clock=0):
    """What `show` writes of a node that was made and has taken nothing."""
    return (
        "role=%d phase=idle clock=%d sent=0 timeout=0 count=0 active=none pending=none address=none lease=none received=none"
        " jrc=none network=%s prefix=none" % (role, clock, network)
    )


def story(name):
    """The commands of a script in examples/, each with the answer that stands below it in what --echo is to write."""
    script, written = (open(os.path.join(ROOT, "examples", name + end)).read().splitlines() for end in (".txt", ".out"))
    written = iter(written)
    for line in script:
        assert next(written) == line
        if line and not line.startswith("#"):
            yield line, next(written)
    assert not list(written)


def edges():
    """Pairs: a line without its end, and its answer, or None."""
    # every number up to 15 may have a node since the vectors; 17 has none
    yield "node 8 0 CAFE", "made"
    yield "show 8", fresh(0, "h'cafe'")
    yield "node 8 1", "made"
    yield "show 8", fresh(1, "h''")
    yield "node 8 1 - ", "made"
    yield "show 8", fresh(1, "none")
    yield "node 9 0 " + "A5" * 16, "made"
    yield "node 9 0 " + "A5" * 17, RANGE
    yield "node 9 0 " + "A5" * 300, RANGE
    yield "node 9 2 CAFE", RANGE
    yield "node 9 255 CAFE", RANGE
    yield "show 9", fresh(0, "h'%s'" % ("a5" * 16))
    yield "node 15 0 CAFE", "made"
    for text, answer in [
        ("node", COMMAND), ("node 9", COMMAND), ("node  9  ", COMMAND), ("nodes 9 0", COMMAND), ("node9 0 0", COMMAND),
        ("node x 0 zz", NUMBER), ("node 9 x zz", NUMBER), ("node 9 256 zz", NUMBER), ("node 9 0 zz", HEX), ("node 9 0 C", HEX),
        ("node 16 0 zz", HEX), ("node 16 0 C", HEX), ("node 16 0 CAFE", NODE), ("node %d 0" % MOST, NODE), ("node %d 0" % (MOST + 1), NUMBER),
        ("node 9 0 - -", HEX), ("node 9 0 --", HEX), ("node 9 0 -0", HEX), ("node 9 0 0-", HEX), ("node 9 0 - 00", HEX), ("node 9 0 00 -", HEX),
        ("start", COMMAND), ("start 9", COMMAND), ("start 9 0", COMMAND), ("start 9 0 10000 1", COMMAND), ("start x 0", COMMAND),
        ("start 9 0 x", NUMBER), ("start 9 x 10000", NUMBER), ("start x 0 10000", NUMBER), ("start 9 0 -1", NUMBER), ("start 9 0 1e4", NUMBER),
        ("start 17 0 10000", NODE), ("start 16 0 10000", NODE), ("start 17 0 x", NUMBER),
        ("start 9 0 9999", RANGE), ("start 9 0 15001", RANGE), ("start 9 0 %d" % MOST, RANGE), ("start 9 0 %d" % (MOST + 1), NUMBER),
        ("poll", COMMAND), ("poll 9", COMMAND), ("poll 9 0 0", COMMAND), ("poll 9 x", NUMBER), ("poll 17 0", NODE), ("poll 9 0", PHASE),
        ("answer", COMMAND), ("answer 9", COMMAND), ("answer x 0 zz", NUMBER), ("answer 9 0 zz", HEX), ("answer 9 0 0", HEX),
        ("answer 9 0 -", HEX), ("answer 17 0 zz", HEX), ("answer 17 0 A0", NODE), ("answer 9 0", PHASE), ("answer 9 0 A0", PHASE),
        ("answer 9 0 " + "00" * 256, PHASE), ("answer 9 0 " + "00" * 257, LONG), ("answer 9 0 " + "00" * 257 + "0", HEX),
        ("update", COMMAND), ("update 9", COMMAND), ("update 9 0", PHASE), ("update 9 0 " + "f F" * 400, LONG), ("update 16 0", NODE),
        ("holds", COMMAND), ("holds 9", COMMAND), ("holds 9 0 0", COMMAND), ("holds 9 0", "no"), ("holds 9 %d" % MOST, "no"), ("holds 17 0", NODE),
        ("send", COMMAND), ("send 9", COMMAND), ("send 9 0 0", COMMAND), ("send 9 256", NUMBER), ("send 9 255", RANGE), ("send 9 2", RANGE),
        ("send 9 0", SILENT), ("send 9 1", SILENT), ("send 17 0", NODE), ("send 17 256", NUMBER),
        ("receive 9 0", COMMAND), ("receive 9 0 0 0", COMMAND), ("receive 9 0 256", NUMBER), ("receive 9 256 1", NUMBER), ("receive 9 0 0", RANGE),
        ("receive 9 2 1", RANGE), ("receive 9 1 255", SILENT), ("receive 17 0 1", NODE),
        ("verified 9 0", COMMAND), ("verified 9 0 256", NUMBER), ("verified 9 0 0", RANGE), ("verified 9 2 1", RANGE), ("verified 9 0 1", SILENT),
        ("turn 8 9", COMMAND), ("turn 8 9 0 0", COMMAND), ("turn 8 9 256", NUMBER), ("turn 8 x 0", NUMBER), ("turn 8 8 0", NODE), ("turn 8 17 0", NODE),
        ("turn 17 8 0", NODE), ("turn 8 16 0", NODE), ("turn %d 8 0" % MOST, NODE), ("turn 8 8 256", NUMBER), ("turn 8 9 2", RANGE), ("turn 8 9 0", SILENT),
        ("show", COMMAND), ("show 9 9", COMMAND), ("show x", NUMBER), ("show 17", NODE), ("show 16", NODE), ("Show 9", COMMAND), ("#show 9", None),
        ("show\t9", COMMAND), ("show 9\t", NUMBER), ("show 9\0", NUMBER), ("", None), ("   ", None), ("\r", None), (" # 1 \r", None),
    ]:
        yield text, answer
    zeros = "0" * FAR
    yield "show " + zeros + "9", fresh(0, "h'%s'" % ("a5" * 16))
    yield "show " + zeros + "17", NODE
    yield " " * FAR + "holds" + " " * FAR + "9" + " " * FAR + zeros + str(MOST) + " " * FAR + "\r", "no"
    yield "holds 9 " + zeros + str(MOST + 1), NUMBER
    yield "node 9 0" + " " * FAR + "C A" + " " * FAR + "FE\r", "made"
    yield "show 9\r", fresh(0, "h'cafe'")
    yield "node 9 0" + " " * FAR + "-" + " " * FAR, "made"
    yield "show   9   ", fresh(0, "none")
    yield "answer 9 0 " + "0f" * FAR, LONG
    yield "answer 9 0 " + "0f" * FAR + "g", HEX
    # a refused call leaves the clock, an accepted one moves it, and the question whether the address holds does not
    yield "node 9 1 -", "made"
    yield "holds 9 7", "no"
    yield "show 9", fresh(1, "none")
    yield "start 9 5 10000", "sent h'a10101'"
    yield "start 9 4 10000", CLOCK
    yield "poll 9 4", CLOCK
    yield "poll 9 10004", "not yet"
    yield "poll 9 10005", "send again"
    yield "start 9 10005 10000", PHASE
    # the last line has no end
    yield "turn 9 8 1", SILENT


def shown(node):
    """What `show` writes of a node without key sets, whose fields are these."""
    hidden = node["address"] == "none"
    return " ".join(
        "%s=%s" % (name, "none" if hidden and name in ("lease", "received") else "h'%s'" % value if name == "address" and not hidden else value)
        for name, value in node.items()
    )


def bench():
    """The bench command `set`: what is wrong with a line, in order, and what a node shows after each good one."""
    yield "node 7 0 CAFE", "made"
    for text, answer in [
        ("set", COMMAND), ("set 7", COMMAND), ("set 7 clock", COMMAND), ("set 7 clock 1 2", COMMAND), ("set 7 address 12 34", COMMAND),
        ("set 7 nothing 1", COMMAND), ("set x phase nothing", COMMAND), ("set 7 phase", COMMAND), ("set 7 phase none", COMMAND),
        ("set 7 phase waitin", COMMAND), ("set 7 active active", COMMAND), ("set 7 pending pending", COMMAND),
        ("set x clock 1", NUMBER), ("set 7 clock x", NUMBER), ("set 7 clock none", NUMBER), ("set 7 role 256", NUMBER), ("set 7 count 256", NUMBER),
        ("set 7 lease -", NUMBER), ("set 7 lease %d" % (MOST + 1), NUMBER), ("set x address zz", NUMBER), ("set 17 clock x", NUMBER),
        ("set 7 address zz", HEX), ("set 7 address 123", HEX), ("set 7 address 12", HEX), ("set 7 address 123456", HEX), ("set 7 address -", HEX),
        ("set 7 counter", COMMAND), ("set 7 counter 1", COMMAND), ("set 7 counter 1 2 3", COMMAND), ("set x counter 1 2", NUMBER), ("set 7 counter x 1", NUMBER),
        ("set 7 counter none 1", NUMBER), ("set 7 counter 256 1", NUMBER), ("set 7 counter 1 x", NUMBER), ("set 7 counter 1 4294967296", NUMBER),
        ("set 17 counter 1 1", NODE), ("set 7 counter 1 1", KEY), ("set 7 counter 0 4294967295", KEY),
        ("set 17 address zz", HEX), ("set 17 address 1234", NODE), ("set 16 phase idle", NODE), ("set 17 active none", NODE), ("set %d role 0" % MOST, NODE),
    ]:
        yield text, answer
    node = dict(
        role="0", phase="idle", clock="0", sent="0", timeout="0", count="0", active="none", pending="none", address="none", lease="none",
        received="0", jrc="none", network="h'cafe'", prefix="none",
    )
    yield "show 7", shown(node)
    for field, value in [
        ("role", "255"), ("role", "1"), ("phase", "waiting"), ("phase", "joined"), ("phase", "gave-up"), ("phase", "idle"), ("clock", str(MOST)), ("sent", "7"),
        ("timeout", "10000"), ("count", "255"), ("count", "4"), ("address", "1234"), ("lease", "3600"), ("received", "9"), ("address", "none"), ("lease", "0"),
        ("address", "feFF"), ("lease", "none"), ("active", "pending"), ("pending", "active"), ("active", "none"), ("pending", "none"), ("  clock", " 100"),
    ]:
        yield "set 7 %s %s" % (field, value), "set"
        if field.strip() in ("active", "pending"):
            value = "none"
        node[field.strip()] = value.strip().lower()
        yield "show 7", shown(node)
    # a node that document 01 refuses answers RANGE to every call, and is as before once the value is
    yield "set 7 count 5", "set"
    for call in ["start 7 100 10000", "poll 7 100", "answer 7 100", "update 7 100", "holds 7 100", "send 7 0", "receive 7 0 1", "verified 7 0 1", "turn 7 8 0"]:
        yield call, RANGE
    yield "set 7 count 0", "set"
    yield "poll 7 100", PHASE
    # copies of key sets
    keys = [(3, 6, b"a key of beacons"), (200, 13, b"and one of data.")]
    beacons, data = ("key %d/%d/h'%s'" % (identifier, usage, value.hex()) for identifier, usage, value in keys)
    yield "node 6 0 CAFE", "made"
    yield "start 6 0 10000", "sent h'a10542cafe'"
    yield "answer 6 0 " + payload(keys), "accepted keys=taken address=absent jrc=absent network=absent prefix=absent passed=0"
    yield "send 6 1", SILENT
    yield "set 6 active pending", "set"
    yield "send 6 1", RANGE
    yield "set 6 pending none", "set"
    yield "send 6 1", data + " counter=0"
    yield "set 6 pending active", "set"
    yield "set 6 active none", "set"
    yield "receive 6 0 3", beacons
    yield "send 6 0", SILENT
    yield "set 6 pending none", "set"
    yield "receive 6 0 3", SILENT
    # counters: the last one is never used, a copy has its own, and a key is looked for in the active set first
    yield "node 6 1 CAFE", "made"
    yield "start 6 0 10000", "sent h'a201010542cafe'"
    yield "answer 6 0 " + payload(keys), "accepted keys=taken address=absent jrc=absent network=absent prefix=absent passed=0"
    yield "send 6 1", data + " counter=0"
    yield "set 6 counter 200 4294967294", "set"
    yield "send 6 1", data + " counter=4294967294"
    yield "send 6 1", SILENT
    yield "receive 6 1 200", data
    yield "set 6 counter 4 0", KEY
    yield "set 6" + " " * FAR + "counter" + " " * FAR + "0" * FAR + "200 " + "0" * FAR + "7" + " " * FAR + "\r", "set"
    yield "set 6 counter 200 7" + " " * FAR + "8", COMMAND
    yield "set 6 pending active", "set"
    yield "set 6 counter 200 5", "set"
    yield "set 6 active none", "set"
    yield "set 6 counter 3 9", "set"
    yield "set 6 active pending", "set"
    yield "set 6 pending none", "set"
    yield "send 6 1", data + " counter=7"
    yield "send 6 0", beacons + " counter=9"


def shown_new(**fields):
    """What `show` writes of a node of the published form: these fields, the others as they are in a fresh one."""
    node = dict(
        role="0", phase="idle", clock="0", sent="0", timeout="0", count="0", active="none", pending="none", address="none", lease="none",
        received="none", jrc="none", network="h'cafe'", blacklist="none", rate="none", reports="[]",
    )
    return "form=new " + " ".join("%s=%s" % pair for pair in {**node, **fields}.items())


def made_of(reports="", passed=0, **taken):
    """What a join answer or an update of the published form is answered: these parameters, the others absent."""
    names = ("keys", "address", "jrc", "blacklist", "rate")
    return "accepted %s passed=%d reports=[%s]" % (" ".join(n + "=" + taken.get(n, "absent") for n in names), passed, reports)


def published():
    """Nodes of the published form, and how much is lent to a start: paper 02, request 11."""
    for text, answer in [
        ("new-node", COMMAND), ("new-node 5", COMMAND), ("new-nodes 5 0", COMMAND), ("new_node 5 0", COMMAND), ("new-node x 0 zz", NUMBER),
        ("new-node 5 x zz", NUMBER), ("new-node 5 256 zz", NUMBER), ("new-node 5 0 zz", HEX), ("new-node 5 0 C", HEX), ("new-node 5 0 - -", HEX),
        ("new-node 16 0 zz", HEX), ("new-node 16 0 CAFE", NODE), ("new-node %d 0" % MOST, NODE), ("new-node 5 0 CAFE", "made"),
        ("new-node 5 2 CAFE", RANGE), ("new-node 5 255 -", RANGE), ("new-node 5 0 " + "A5" * 17, RANGE), ("show 5", shown_new()),
        ("room", COMMAND), ("room 1 2", COMMAND), ("rooms 1", COMMAND), ("room x", NUMBER), ("room -", NUMBER), ("room 257", NUMBER),
        ("room %d" % (MOST + 1), NUMBER), ("room 256", "lent 256"), ("room " + "0" * FAR + "16" + " " * FAR + "\r", "lent 16"), ("room 4", "lent 4"),
    ]:
        yield text, answer
    # a start has the room that is lent, and a refused one leaves the node
    yield "start 5 0 10000", "refused 12 ROOM"
    yield "show 5", shown_new()
    yield "room 5", "lent 5"
    yield "start 5 0 10000", "sent h'a10542cafe'"
    waiting = dict(phase="waiting", timeout="10000")
    yield "show 5", shown_new(**waiting)
    # everything bad: accepted, reported in payload order, and asked for in the next request
    yield "answer 5 1 A5 07 F6 04 F6 02 F6 06 F6 03 F6", made_of("1/7,1/4,1/2,1/6,1/3", **dict.fromkeys(("keys", "address", "jrc", "blacklist", "rate"), "malformed"))
    yield "show 5", shown_new(phase="joined", clock="1", timeout="10000", reports="[1/7,1/4,1/2,1/6,1/3]")
    yield "update 5 0 A0", CLOCK
    yield "update 5 1 A1 61 61 00", "refused 5 TYPE"
    yield "room 21", "lent 21"
    yield "start 5 2 10000", "refused 12 ROOM"
    yield "room 22", "lent 22"
    yield "start 5 2 10000", "sent h'a20542cafe088f0107f60104f60102f60106f60103f6'"
    yield "room 256", "lent 256"
    # everything good, with additional information; 5 is passed over
    keys = "01 50 000102030405060708090A0B0C0D0E0F 44 01020304 02 06 50 0F0E0D0C0B0A09080706050403020100"
    first, second = "1/0/h'000102030405060708090a0b0c0d0e0f'/h'01020304'", "2/6/h'0f0e0d0c0b0a09080706050403020100'"
    yield "answer 5 3 A6 07 18 64 05 40 03 82 42 12 34 02 06 82 40 41 AA 04 50 %s 02 86 %s" % ("4A" * 16, keys), made_of("", 1, **dict.fromkeys(("keys", "address", "jrc", "blacklist", "rate"), "taken"))
    held = dict(
        phase="joined", clock="3", sent="2", timeout="10000", pending="[%s#0,%s#0]" % (first, second), address="h'1234'", lease="2", received="3",
        jrc="h'%s'" % ("4a" * 16), blacklist="[h'',h'aa']", rate="100",
    )
    yield "show 5", shown_new(**held)
    yield "receive 5 1 1", "key " + first
    yield "send 5 1", SILENT
    yield "verified 5 0 2", "switched"
    yield "send 5 1", "key %s counter=0" % first
    held.update(active="[%s#1,%s#0]" % (first, second), pending="none")
    yield "show 5", shown_new(**held)
    # a lease of two hours ends with the second
    yield "holds 5 7200002", "yes"
    yield "holds 5 7200003", "no"
    # a clashing set is reported, the rest is taken; the same set but for its information clashes too, and the same set does not
    yield "update 5 4 A2 02 82 02 50 %s 06 80" % ("00" * 16), made_of("1/2", keys="malformed", blacklist="taken")
    yield "update 5 4 A1 02 85 " + keys.replace("44 01020304 ", ""), made_of("1/2", keys="malformed")
    yield "update 5 4 A1 02 86 " + keys, made_of(keys="taken")
    held.update(clock="4", blacklist="[]")
    yield "show 5", shown_new(**held)
    # the bench command puts values into nodes of either form
    yield "set 5 address FFFE", "set"
    yield "send 5 1", RANGE
    yield "set 5 address 1234", "set"
    yield "set 5 pending active", "set"
    yield "send 5 1", RANGE
    yield "set 5 pending none", "set"
    yield "set 5 counter 1 7", "set"
    yield "send 5 1", "key %s counter=7" % first
    # the network identifier is owed by the border router too
    yield "new-node 5 1 -", "made"
    yield "start 5 0 10000", "refused 9 OWED"
    yield "node 5 1 -", "made"
    yield "room 2", "lent 2"
    yield "start 5 0 10000", "refused 12 ROOM"
    yield "room 3", "lent 3"
    yield "start 5 0 10000", "sent h'a10101'"
    yield "room 256", "lent 256"
    # one network with nodes of both forms
    plain = "02 82 09 50 " + "09" * 16
    yield "answer 5 0 A2 05 42 CA FE " + plain, "accepted keys=taken address=absent jrc=absent network=taken prefix=absent passed=0"
    yield "new-node 4 0 CAFE", "made"
    yield "start 4 0 10000", "sent h'a10542cafe'"
    yield "answer 4 0 A1 " + plain, made_of(keys="taken")
    yield "turn 4 5 1", SILENT
    yield "turn 5 4 1", "switched"
    yield "turn 4 5 1", "kept"
    # made again, a node has the form that it is made with
    yield "node 4 0 CAFE", "made"
    yield "show 4", fresh(0, "h'cafe'")


def lines():
    return [*story("rekey"), *story("sleeper"), *networks(), *bench(), *published(), *edges()]


if __name__ == "__main__":
    splice("simulate", "simulate_edges.py", lines(), ended=False)
