"""Rekeys of networks of up to 16 nodes as lines of simulate, which tools/simulate_edges.py adds to its input: lines, rings, stars and grids.

It knows a network's links, the hops that they make, the order of the turns, which usages cover which frame types, which sets each node has, and who
has switched: node 0, the border router, at the beginning, and each node that hears one that has and waits for its set; and how often each node was
asked for each key. In the worst order, farther senders first, the nodes within h hops have switched after round h; in the best order, nearer senders first, all have after one round. Between the turns occur starts, polls and
refused updates and join answers, which change no key set. Where nodes are asleep, hops count only along the others.
"""
from collections import Counter
from itertools import cycle

BEACON, DATA = 0, 1
TAKEN = "accepted keys=taken address=absent jrc=absent network=absent prefix=absent passed=0"
SWITCHED, KEPT = "switched", "kept"
SILENT, KEYS, CLASH, PHASE = "refused 14 SILENT", "refused 7 KEYS", "refused 10 CLASH", "refused 16 PHASE"


def key_set(name, *keys):
    """Keys, each an identifier and a usage, with values that tell them apart."""
    return [(identifier, usage, b"%-12s%04d" % (name, identifier)) for identifier, usage in keys]


# Old and new sets, and the frame types of a round's turns in rotation: types that the new set covers.
REKEYS = [
    (key_set(b"old", (1, 0)), key_set(b"new", (5, 0)), [DATA]),
    (key_set(b"beacons", (3, 6), (200, 13)), key_set(b"data first", (24, 9), (7, 8), (255, 3)), [BEACON, DATA]),
    (key_set(b"both", (9, 5), (8, 6), (7, 12)), key_set(b"eight", *zip([31, 30, 29, 28, 27, 26, 25, 23], [14, 11, 10, 7, 4, 2, 1, 0])), [DATA, DATA, BEACON]),
    (key_set(b"old", (1, 2), (2, 7)), key_set(b"data alone", (11, 12), (12, 10)), [DATA]),
]


THIRD = key_set(b"third", (100, 0))


def covers(usage, frame):
    """Usages 0 to 5 are for both types of frame, 6 to 8 for beacons, 9 to 14 for data."""
    return usage < 6 or (usage < 9) == (frame == BEACON)


def sends(keys, frame):
    """The first key that covers the type, or None."""
    return next((key for key in keys if covers(key[1], frame)), None)


def line(n):
    return [(i, i + 1) for i in range(n - 1)]


def ring(n):
    return line(n) + [(n - 1, 0)]


def star(n):
    return [(0, i) for i in range(1, n)]


def grid(n, width=4):
    right = [(i, i + 1) for i in range(n - 1) if i % width != width - 1]
    return right + [(i, i + width) for i in range(n - width)]


NETWORKS = [("line", line, [2, 3, 16]), ("ring", ring, [3, 4, 15, 16]), ("star", star, [2, 16]), ("grid", grid, [8, 16])]


def both_ways(links):
    return links + [(b, a) for a, b in links]


def hops(n, links):
    """How many links lead from node 0 to each node."""
    far = [0] + [None] * (n - 1)
    for h in range(n):
        for a, b in both_ways(links):
            if far[a] == h and far[b] is None:
                far[b] = h + 1
    return far


def head(major, argument):
    return bytes([major * 32 + argument] if argument < 24 else [major * 32 + 24, argument])


def payload(keys):
    """A configuration that holds this set."""
    items = b"".join(head(0, i) + (head(0, usage) if usage else b"") + head(2, 16) + value for i, usage, value in keys)
    return (b"\xa1\x02" + head(4, sum(3 if usage else 2 for _, usage, _ in keys)) + items).hex()


class Network:
    """The nodes of a rekey: their key sets, and how far the join attempt of each has come."""

    def __init__(self, n, old, new):
        self.n, self.old, self.new = n, old, new
        self.active = [old] * n
        self.pending = [None] * n
        self.sendings = Counter()  # by node and identifier: the next counter of the key
        self.now = 3000
        self.waiting = {}  # the last sending, the timeout and the count of those that wait for an answer
        self.gave_up = set()
        self.events = enumerate(cycle([self.clashing, self.poll, self.start, self.poll, self.clashing, self.poll, self.bad_answer]))

    def switched(self):
        return {i for i in range(self.n) if self.active[i] is self.new}

    def count(self, i, key):
        """The key's counter at this node, which is one higher from then on."""
        self.sendings[i, key[0]] += 1
        return self.sendings[i, key[0]] - 1

    def joined(self):
        """The nodes join and use the old key set; the ordinary ones take it up by a frame of the border router."""
        frame = next(f for f in (DATA, BEACON) if sends(self.old, f))
        for i in range(self.n):
            yield "node %d %d CAFE" % (i, i == 0), "made"
            yield "start %d 1000 10000" % i, self.sent(i)
            yield "answer %d 2000 %s" % (i, payload(self.old)), TAKEN
        for i in range(1, self.n):
            self.count(0, sends(self.old, frame))
            yield "turn 0 %d %d" % (i, frame), SWITCHED

    def updated(self, nodes, keys):
        """These nodes get the key set."""
        for i in nodes:
            self.pending[i] = keys
            yield "update %d %d %s" % (i, self.now, payload(keys)), TAKEN

    def moved(self, i):
        """This node hears of a frame under its pending set."""
        frame = next(f for f in (DATA, BEACON) if sends(self.pending[i], f))
        said = "verified %d %d %d" % (i, frame, sends(self.pending[i], frame)[0])
        self.active[i], self.pending[i] = self.pending[i], None
        return said, SWITCHED

    def sending(self):
        """Each node is asked for the key of either type, which says whether it has switched."""
        for i in range(self.n):
            for frame in (BEACON, DATA):
                key = sends(self.active[i], frame)
                said = "key %d/%d/h'%s' counter=%d" % (key[0], key[1], key[2].hex(), self.count(i, key)) if key else SILENT
                yield "send %d %d" % (i, frame), said

    def turn(self, sender, receiver, frame):
        """The receiver keeps its active set under a frame of it, switches under one of its pending set, and knows no other."""
        key = sends(self.active[sender], frame)
        if not key:
            return "turn %d %d %d" % (sender, receiver, frame), SILENT
        self.count(sender, key)
        answer = SILENT
        if self.active[receiver] is self.active[sender]:
            answer = KEPT
        elif self.pending[receiver] is self.active[sender]:
            answer = SWITCHED
            self.active[receiver], self.pending[receiver] = self.active[sender], None
        return "turn %d %d %d" % (sender, receiver, frame), answer

    @staticmethod
    def sent(i):
        return "sent h'%s'" % ("a10542cafe" if i else "a201010542cafe")

    def event(self):
        """Something else that happens, a while later, now at this node and now at that, at some more often."""
        k, what = next(self.events)
        self.now += 4999 + k
        return what((k * k + k // 20) % self.n)

    def clashing(self, i):
        """An update whose set has an identifier of the set in use; the border router would take it, and gets no key at all."""
        identifier, usage, _ = self.active[i][-1]
        keys, refused = ([], KEYS) if i == 0 else ([(identifier, usage, b"not the same key")], CLASH)
        return "update %d %d %s" % (i, self.now, payload(keys)), PHASE if i in self.waiting or i in self.gave_up else refused

    def start(self, i):
        said = PHASE if i in self.waiting else self.sent(i)
        if said != PHASE:
            self.waiting[i] = (self.now, 10000 + i, 0)
            self.gave_up.discard(i)
        return "start %d %d %d" % (i, self.now, 10000 + i), said

    def bad_answer(self, i):
        return "answer %d %d %s" % (i, self.now, payload([])), KEYS if i in self.waiting else PHASE

    def poll(self, i):
        said = PHASE
        if i in self.waiting:
            sent, timeout, count = self.waiting[i]
            said = "not yet" if self.now - sent < timeout else "send again" if count < 4 else "gave up"
            if said == "send again":
                self.waiting[i] = (self.now, timeout * 2, count + 1)
            if said == "gave up":
                del self.waiting[i]
                self.gave_up.add(i)
        return "poll %d %d" % (i, self.now), said


def rekey(n, links, order, old, new, types, asleep=(), third=None):
    """The lines of a network from the beginning to its last round, with their answers. The nodes asleep miss the new set; of the two
    of `third`, which lack it too, the first has a third set active, and the second has that one pending."""
    lacking = [*asleep, *(third or ())]
    far = hops(n, [(a, b) for a, b in links if a not in lacking and b not in lacking])
    turns = sorted(both_ways(links), key=lambda t: n if far[t[0]] is None else far[t[0]], reverse=order == "worst")
    frames = cycle(types)
    network = Network(n, old, new)
    yield from network.joined()
    yield from network.updated([i for i in range(1, n) if i not in lacking], new)
    if third:
        yield from network.updated(third, THIRD)
        yield network.moved(third[0])
    for _ in range(n):
        yield network.event()
    # a round of turns under the old set, of either type
    for k, (a, b) in enumerate(turns):
        yield network.turn(a, b, k % 2)
    yield from network.sending()
    # the border router may have started since: then the new set arrives by a join answer
    assert 0 not in network.gave_up
    yield "%s 0 %d %s" % ("answer" if 0 in network.waiting else "update", network.now, payload(new)), TAKEN
    network.waiting.pop(0, None)
    network.active[0] = new
    yield from network.sending()
    reached = {i for i in range(n) if far[i] is not None}
    for h in range(1, max(far[i] for i in reached) + 1 if order == "worst" else 2):
        for k, (a, b) in enumerate(turns):
            yield network.turn(a, b, next(frames))
            if k % 3 == 2:
                yield network.event()
        assert network.switched() == {i for i in reached if order == "best" or far[i] <= h}
        # a node that lacks the set and has none pending keeps its keys; one that has another set pending may switch to that one
        assert all(network.active[i] is network.old for i in asleep)
        yield from network.sending()


# Networks with nodes that lack the new set: those asleep, and two with a third set.
SLEEPERS = [
    ("line", line, 5, [2], None), ("ring", ring, 8, [3], None), ("star", star, 9, [2, 5], (7, 8)), ("grid", grid, 16, [1, 6, 9], (14, 15)),
    ("line", line, 4, [1, 2, 3], None),
]


def networks():
    """Pairs: a line without its end, and its answer, or None."""
    rekeys = cycle(REKEYS)
    for name, links, sizes in NETWORKS:
        for n in sizes:
            for order in ["worst", "best"]:
                old, new, types = next(rekeys)
                yield "# a %s of %d nodes, %s order, sets of %d and %d keys" % (name, n, order, len(old), len(new)), None
                yield from rekey(n, links(n), order, old, new, types)
    for name, links, n, asleep, third in SLEEPERS:
        for order in ["worst", "best"]:
            old, new, types = next(rekeys)
            yield "# a %s of %d nodes, %s order, %s asleep" % (name, n, order, " and ".join(map(str, asleep))), None
            yield from rekey(n, links(n), order, old, new, types, asleep, third)
