#!/usr/bin/env python3
"""Writes OUT/desk.html: the page with scripts, style, the module OUT/pothatch.wasm, its interface and the words of docs/TOOLS.md in it.
Its Content-Security-Policy permits these scripts and this style, by their hashes, and nothing else. With a script TEST, which takes the
place of the page's beginning, it writes OUT/desk_test.html.

Usage: page.py OUT [TEST]"""
import base64
import hashlib
import json
import os
import re
import sys

HERE = os.path.dirname(os.path.abspath(__file__))
ROOT = os.path.dirname(os.path.dirname(HERE))
SCRIPTS = ("library.js", "answers.js", "building.js", "desk.js")


def read(*path):
    with open(os.path.join(*path), encoding="utf-8") as f:
        return f.read()


def refusals():
    """The words for each refusal, by number."""
    return {int(number): words for number, words in re.findall(r"^\| (\d+) \| [A-Z]+ \| (.*?) \|$", read(ROOT, "docs", "TOOLS.md"), re.M)}


def script(out, test):
    with open(os.path.join(out, "pothatch.wasm"), "rb") as f:
        module = base64.b64encode(f.read()).decode()
    interface = json.loads(read(out, "interface.json"))
    values = {"REFUSALS": refusals(), "INTERFACE": interface, "STYLE": read(HERE, "style.css"), "MODULE": module}
    constants = ["const %s = %s;" % (name, json.dumps(value, separators=(",", ":"))) for name, value in values.items()]
    end = read(test) if test else "begin();"
    return "\n".join([*(read(HERE, name) for name in SCRIPTS), *constants, end])


def hash_of(text):
    return "'sha256-%s'" % base64.b64encode(hashlib.sha256(text.encode()).digest()).decode()


def main():
    out, test = sys.argv[1], sys.argv[2] if len(sys.argv) > 2 else None
    parts = {"SCRIPT": script(out, test), "STYLE": read(HERE, "style.css")}
    if "</script" in parts["SCRIPT"].lower():
        sys.exit("a script has the end of a script in it")
    parts |= {name + "-HASH": hash_of(text) for name, text in parts.items()}
    page = re.sub(r"@([A-Z-]+)@", lambda mark: parts[mark.group(1)], read(HERE, "page.html"))
    with open(os.path.join(out, "desk_test.html" if test else "desk.html"), "w", encoding="utf-8") as f:
        f.write(page)


main()
