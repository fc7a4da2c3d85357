#!/usr/bin/env python3
"""Draws docs/pictures/rekey.svg: a rekey in three steps. Who has which key set is taken from examples/rekey.out, what simulate answers.

Usage: tools/draw_rekey.py [--check]"""
import os
import re
import sys

sys.dont_write_bytecode = True
from drawing import ROOT, Picture, main, wrapped  # noqa: E402

OLD, NEW = 1, 2
BORDER = 0
# The comment of the example that each step ends at, and what the picture says of the step.
STEPS = [
    ("# The network works on", "1. Hand out", "Every unit but the border router has the new key set pending. All send under the old one."),
    ("# The units one hop away", "2. Switch; one round", "The border router accepts the new set. Who hears a frame under it switches too."),
    ("# Everybody has followed", "3. One more round", "After h rounds all units within h hops have switched: here all of them."),
]
PANEL, TOP, LEVEL, RADIUS, HEIGHT = 310, 96, 76, 20, 350


def identifier(words):
    """The identifier of the key in a payload of the example: label 2, then an array of two members."""
    payload = bytes.fromhex("".join(words))
    return payload[payload.index(b"\x02\x82") + 2]


class Units:
    """The active and pending key of each unit, by the answers of simulate; the links are those of the first beacons."""

    def __init__(self):
        self.active, self.pending, self.links = {}, {}, []

    def play(self, command, answer):
        name, *words = command.split()
        if name in ("answer", "update") and answer.startswith("accepted keys=taken"):
            sets = self.active if int(words[0]) == BORDER else self.pending
            sets[int(words[0])] = identifier(words[2:])
        if name == "turn" and answer == "switched":
            sender, receiver = int(words[0]), int(words[1])
            self.active[receiver] = self.pending.pop(receiver)
            if self.active[receiver] == OLD:
                self.links.append((sender, receiver))


def snapshots():
    """The units at the end of each step."""
    units, command, found = Units(), None, []
    with open(os.path.join(ROOT, "examples", "rekey.out"), encoding="utf-8") as f:
        for line in map(str.strip, f):
            if line.startswith("#"):
                if any(line.startswith(step[0]) for step in STEPS):
                    found.append((dict(units.active), dict(units.pending)))
            elif re.match(r"(node|start|poll|answer|update|send|receive|turn|show|holds) \d", line):
                command = line
            elif line:
                units.play(command, line)
    return units.links, found


def places(links):
    """Where each unit is drawn: units that nobody hears stand side by side, the others above those that hear them."""
    below = {}
    for sender, receiver in links:
        below.setdefault(sender, []).append(receiver)
    place, free = {}, iter(range(16))

    def put(unit, level):
        columns = [put(lower, level + 1) for lower in below.get(unit, [])]
        place[unit] = (sum(columns) / len(columns) if columns else next(free), level)
        return place[unit][0]

    put(BORDER, 0)
    return place


def unit(p, x, y, name, sends_new, waits):
    p.add("circle", cx=x, cy=y, r=RADIUS, class_="new" if sends_new else "old")
    if waits:
        p.add("circle", cx=x, cy=y, r=RADIUS + 5, class_="wait")
    p.text(x, y + 5, name, "on-new" if sends_new else "")


def picture():
    links, found = snapshots()
    place = places(links)
    p = Picture(3 * PANEL, HEIGHT + 50, "A rekey in three steps.")
    for number, ((_, title, words), (active, pending)) in enumerate(zip(STEPS, found, strict=True)):
        left = number * PANEL
        at = {u: (left + 50 + column * 70, TOP + 24 + level * LEVEL) for u, (column, level) in place.items()}
        p.text(left + PANEL / 2, 30, title, "title")
        p.lines(left + PANEL / 2, 50, wrapped(words, 44))
        for a, b in links:
            p.add("line", x1=at[a][0], y1=at[a][1], x2=at[b][0], y2=at[b][1], class_="line")
        for u in sorted(at):
            unit(p, *at[u], "BR" if u == BORDER else str(u), active[u] == NEW, pending.get(u) == NEW)
    for column, (words, new, waits) in enumerate((("sends under the old set", False, False), ("the same, new set pending", False, True),
                                                  ("sends under the new set", True, False))):  # fmt: skip
        unit(p, column * PANEL + 50, HEIGHT, "", new, waits)
        p.text(column * PANEL + 84, HEIGHT + 5, words, "small", "start")
    return p


if __name__ == "__main__":
    main("rekey", picture())
