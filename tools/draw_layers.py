#!/usr/bin/env python3
"""Draws docs/pictures/layers.svg: the layers of crates.txt with their questions from docs/ARCHITECTURE.md. A use that does not lead to a
lower row of the picture is an error.

Usage: tools/draw_layers.py [--check]"""
import os
import re
import sys

sys.dont_write_bytecode = True
from drawing import ROOT, Picture, main, wrapped  # noqa: E402

# Each layer: row from below, first and last column of twelve, rows that it spans.
PLACES = {
    "ground": (0, 0, 12, 1),
    "items": (1, 0, 3, 1),
    "keys": (1, 3, 6, 1),
    "objects": (2, 0, 6, 1),
    "node": (3, 0, 6, 1),
    "trace": (4, 0, 3, 1),
    "network": (4, 3, 6, 1),
    "ledger": (1, 6, 9, 4),
    "crypto": (1, 9, 12, 4),
    "C interface": (5, 0, 4, 1),
    "benchmarks": (5, 4, 8, 1),
    "tools": (5, 8, 12, 1),
    "tests": (6, 8, 12, 1),
}
OTHERS = {"benchmarks": "What does a call cost?", "tests": "Do the vectors still hold?"}
COLUMN, ROW, GAP, MARGIN = 76, 76, 8, 12


def layers():
    """The layers of crates.txt in order, each with the other layers that it uses."""
    layer, layer_of, uses = None, {}, {}
    with open(os.path.join(ROOT, "crates.txt"), encoding="utf-8") as f:
        for line in f:
            if line.startswith("#"):
                layer = line[1:].strip()
                uses[layer] = set()
            elif ":" in line:
                name, used = line.split(":")
                layer_of[name.split()[0]] = layer
                uses[layer] |= {layer_of[crate] for crate in used.split() if crate in layer_of} - {layer}
    return {layer: used for layer, used in uses.items() if layer in layer_of.values()}


def questions():
    with open(os.path.join(ROOT, "docs", "ARCHITECTURE.md"), encoding="utf-8") as f:
        table = re.search(r"^\| Question \| Layer \|\n\|---\|---\|\n((?:\|.*\|\n)+)", f.read(), re.M).group(1)
    rows = [[cell.strip() for cell in line.strip("|").split("|")] for line in table.splitlines()]
    return {**OTHERS, **{layer: question for question, layer in rows}}


def picture():
    rows = 1 + max(place[0] for place in PLACES.values())
    p = Picture(12 * COLUMN + 2 * MARGIN - GAP, rows * ROW + 2 * MARGIN - GAP, "The layers: each uses only layers below it.")
    asked = questions()
    for layer, used in layers().items():
        if layer not in PLACES or layer not in asked:
            sys.exit("no place or no question for the layer %s" % layer)
        row, first, last, high = PLACES[layer]
        for lower in sorted(used):
            if PLACES[lower][0] + PLACES[lower][3] > row:
                sys.exit("%s uses %s, which is not below it in the picture" % (layer, lower))
        width = (last - first) * COLUMN - GAP
        top = MARGIN + (rows - row - high) * ROW
        p.box(MARGIN + first * COLUMN, top, width, high * ROW - GAP, layer, wrapped(asked[layer], width // 7))
    return p


if __name__ == "__main__":
    main("layers", picture())
