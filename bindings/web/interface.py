#!/usr/bin/env python3
"""Prints the interface of pothatch.h as JSON: the parameters of each function, the members of each struct with their offsets, and the
structs' sizes. With --exports it prints the linker's options for the functions instead.

Usage: interface.py [--exports] HEADER"""
import json
import re
import sys

WIDTH = {"uint8_t": 1, "uint16_t": 2, "uint32_t": 4, "uint64_t": 8}


def parameters(text):
    """Each parameter as [kind, name, bytes]: "in" and "out" are slices, "result" is a number that the call stores, "number" is one by
    value."""
    words = [] if text.strip() == "void" else [" ".join(word.split()) for word in text.split(",")]
    found, at = [], 0
    while at < len(words):
        constant, kind, star, name = re.fullmatch(r"(const )?(\w+) (\*?)(\w+)", words[at]).groups()
        if star and at + 1 < len(words) and words[at + 1] == "uint64_t %s_len" % name:
            found.append(["in" if constant else "out", name, 1])
            at += 2
        else:
            found.append(["result" if star else "number", name, WIDTH[kind]])
            at += 1
    return found


def members(body, sizes):
    """Each member as [name, offset, size, struct or "", count], and the size of all."""
    found, at = [], 0
    for kind, names in re.findall(r"(uint8_t|struct pothatch_\w+) ([^;]*);", body):
        struct = kind.removeprefix("struct pothatch_") if kind != "uint8_t" else ""
        for declared in names.split(","):
            name, *lengths = re.findall(r"\w+", declared)
            lengths = list(map(int, lengths))
            if struct:
                size, count = sizes[struct], lengths[0] if lengths else 0
            else:
                size, count = (lengths or [1])[-1], lengths[0] if len(lengths) == 2 else 0
            found.append([name, at, size, struct, count])
            at += size * max(count, 1)
    return found, at


def interface(text):
    bare = re.sub(r"/\*.*?\*/", "", text, flags=re.S)
    functions = {
        name: parameters(words)
        for name, words in re.findall(r"^uint32_t pothatch_(\w+)\(([^)]*)\)(?: POTHATCH_CHECKED)?;", bare, re.M)
    }
    structs, sizes = {}, {}
    for name, body in re.findall(r"^struct pothatch_(\w+) \{(.*?)^\};", bare, re.M | re.S):
        structs[name], sizes[name] = members(body, sizes)
    for name, size in re.findall(r"POTHATCH_IS\(pothatch_(\w+), (\d+)\)", text):
        if sizes[name] != int(size):
            sys.exit("struct pothatch_%s has %d bytes here and %s in the header" % (name, sizes[name], size))
    return {"functions": functions, "structs": structs, "sizes": sizes}


def main():
    with open(sys.argv[-1], encoding="utf-8") as f:
        found = interface(f.read())
    if sys.argv[1] == "--exports":
        print(" ".join("--export=pothatch_" + name for name in found["functions"]))
    else:
        print(json.dumps(found, separators=(",", ":")))


if __name__ == "__main__":
    main()
