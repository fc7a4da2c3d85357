#!/usr/bin/env python3
"""Draws docs/pictures/node.svg: the phases of a join attempt (crates/node_attempt) and a node's two key sets (crates/node_key_sets).

Usage: tools/draw_node.py [--check]"""
import sys

sys.dont_write_bytecode = True
from drawing import Picture, main  # noqa: E402

WIDTH, HEIGHT = 930, 576


def phases(p):
    p.text(20, 30, "The join attempt", "title", "start")
    p.box(20, 80, 130, 56, "idle", ["as made"])
    p.box(370, 80, 170, 56, "waiting", ["for the join answer"])
    p.box(760, 80, 150, 56, "joined", ["may be updated"])
    p.box(370, 230, 170, 56, "gave up", ["may start again"])
    p.arrow("M150 108 H370")
    p.lines(260, 96, ["start"], "")
    p.lines(260, 128, ["writes the join request"])
    p.arrow("M540 98 H760")
    p.lines(650, 86, ["answer"], "")
    p.arrow("M760 120 H540")
    p.lines(650, 140, ["start, to join again"])
    p.arrow("M425 80 C415 40 495 40 485 80")
    p.lines(500, 52, ["poll: not yet; or send again, up to 4 times, with the timeout doubled"], "small", "start")
    p.arrow("M430 136 V230")
    p.lines(420, 180, ["poll: gave up,", "at the fifth timeout"], "small", "end")
    p.arrow("M480 230 V136")
    p.lines(490, 188, ["start"], "small", "start")
    p.arrow("M810 136 C800 190 870 190 860 136")
    p.lines(835, 194, ["update"], "")


def key_sets(p):
    p.text(20, 340, "The key sets of an ordinary node", "title", "start")
    p.box(20, 370, 150, 74, "none", ["does not send"])
    p.box(260, 370, 150, 74, "pending", ["receives,", "does not send"])
    p.box(520, 370, 150, 74, "active", ["sends and", "receives"])
    p.box(760, 370, 150, 74, "active, pending", ["sends by the first,", "receives by both"])
    p.arrow("M170 407 H260")
    p.lines(215, 397, ["key set"])
    p.arrow("M410 407 H520")
    p.lines(465, 397, ["verified frame"])
    p.arrow("M670 407 H760")
    p.lines(715, 397, ["another set"])
    p.arrow("M835 444 C835 490 595 490 595 444")
    back = ["verified frame under the pending set: it is active, the old one gone;", "or the active set again: the pending one is dropped"]
    p.lines(700, 498, back)
    notes = [
        "A further set replaces the pending one. One that shares an identifier with the active set and is not that set is refused",
        "(RFC 9031: reported). At a border router a key set is active at once. A refused call changes neither phase nor key set.",
    ]
    p.lines(20, 540, notes, "small", "start")


def picture():
    p = Picture(WIDTH, HEIGHT, "The life of a node: phases of its join attempt, and its key sets.")
    phases(p)
    key_sets(p)
    return p


if __name__ == "__main__":
    main("node", picture())
