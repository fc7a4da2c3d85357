#!/usr/bin/env python3
"""Counts older forms in crates/*/src, by the points of docs/DESIGN-PASS.md; with -v each place.

A row is a place to look at: some stay, with a line `// Kept:` beside them. The last column counts those lines.
"""
import collections
import glob
import os
import re
import sys

TOP = os.path.dirname(os.path.dirname(os.path.abspath(__file__)))
REFUSING = {"Refused", "Nothing", "No", "Fault", "Bad", "Broken", "Wrong", "Neither", "NoInteger", "NoMap", "Unknown", "Failed", "Other", "Empty"}
FLAGS = r"verdict: (?:Verdict|Result<\(\), Refusal>)|(?:found|good|due|named|leased|present|is_\w+): bool"


def sources():
    for path in sorted(glob.glob(TOP + "/crates/*/src/**/*.rt", recursive=True)):
        with open(path) as f:
            text = f.read()
        yield os.path.relpath(path, TOP + "/crates"), re.sub(r"//[^\n]*", "", text)


def line_of(text, at):
    return text.count("\n", 0, at) + 1


def found(pattern, flags=re.M):
    return [(f"{path}:{line_of(text, m.start())}", m.group(0).strip().split("\n")[0])
            for path, text in sources() for m in re.finditer(pattern, text, flags)]


def enums():
    """own enums of which one case says that there is no value, and structs with a flag or a verdict beside a value"""
    rows = []
    for path, text in sources():
        for m in re.finditer(r"\benum (\w+) \{(.*?)\n\}", text, re.S):
            cases = re.findall(r"^ {4}(\w+)", m.group(2), re.M)
            if REFUSING & set(cases):
                rows.append((f"{path}:{line_of(text, m.start())}", "enum " + m.group(1)))
        for m in re.finditer(r"\bstruct (\w+) \{(.*?)\n\}", text, re.S):
            if re.search(FLAGS, m.group(2)) and m.group(2).count(":") > 1:
                rows.append((f"{path}:{line_of(text, m.start())}", "struct " + m.group(1)))
    return rows


def codes():
    """arms that take a number to a case or a case to a number, a row for each function"""
    rows = []
    for path, text in sources():
        for m in re.finditer(r"^ *(?:pub |pub\(crate\) )?fn (\w+)[^\n]*\n(.*?)\n *\}\n(?=\n|\}|$)", text, re.M | re.S):
            arms = re.findall(r"^ *(?:\d+ => (?:Ok\(|Some\()?\w+::\w+|\w+::\w+ => \d+),", m.group(2), re.M)
            if len(arms) > 1:
                rows.append((f"{path}:{line_of(text, m.start())}", m.group(1)))
    return rows


def bodies():
    """functions of three lines or more whose bodies are the same but for names, numbers and types"""
    shapes = collections.defaultdict(list)
    for path, text in sources():
        for m in re.finditer(r"^ *(?:pub |pub\(crate\) )?fn (\w+)(.*?)^( *)\{\n(.*?)\n\3\}$", text, re.M | re.S):
            body = re.sub(r"\b[A-Za-z_]\w*\b|\d[\d_]*|b?\"[^\"]*\"", "x", m.group(4))
            body = re.sub(r"\s+", " ", body)
            if m.group(4).count("\n") >= 3:
                shapes[body].append((f"{path}:{line_of(text, m.start())}", m.group(1)))
    return [row for rows in shapes.values() if len(rows) > 1 for row in rows]


def clauses():
    """a `requires` that stands in three functions or more, and lists of parameters that do"""
    seen = collections.defaultdict(list)
    for path, text in sources():
        for m in re.finditer(r"requires[^{\n]*\{ ([^\n]*) \}", text):
            seen[m.group(1)].append((f"{path}:{line_of(text, m.start())}", "requires " + m.group(1)))
        for m in re.finditer(r"\bfn \w+(?:<[^>]*>)?\(([^)]*)\)", text):
            params = [p.strip() for p in m.group(1).replace("\n", " ").split(",") if ":" in p]
            if len(params) >= 3:
                key = ", ".join(params)
                seen[key].append((f"{path}:{line_of(text, m.start())}", "(" + key + ")"))
    return [row for rows in seen.values() if len(rows) >= 3 for row in rows]


def buffers():
    """structs that hold an array and a count of its elements, or two arrays"""
    rows = []
    for path, text in sources():
        for m in re.finditer(r"\bstruct (\w+) \{(.*?)\n\}", text, re.S):
            arrays = len(re.findall(r": \[", m.group(2)))
            if arrays and (re.search(r"\b(?:len|count|used|size|at|arrived)\w*: (?:usize|u\d+)", m.group(2)) or arrays > 1):
                rows.append((f"{path}:{line_of(text, m.start())}", "struct " + m.group(1)))
    return rows


POINTS = [
    ("1", "own enums or structs of the shape of Option or Result", enums),
    ("1", "functions that take numbers to cases or cases to numbers", codes),
    ("2", "functions with the body of another, but for names and numbers", bodies),
    ("3", "while and loop", lambda: found(r"^ *(?:while|loop)\b[^\n]*")),
    ("4", "equality by hand: functions same.., loops that compare", lambda: found(r"\bfn (?:same|equal|is_same|is_board)\w*[^\n]*")),
    ("5", "a requires or a list of parameters that three functions have", clauses),
    ("6", "structs with an array and its count, or two arrays", buffers),
    ("7", "functions handed on by hand: fn pointers, dyn, match on a verb or command",
     lambda: found(r"^ *match (?:\w+\.)*(?:verb|command|step|kind|asking)\b[^\n]*")),
]


def main():
    wide = "-v" in sys.argv[1:]
    for point, what, places in POINTS:
        rows = places()
        print(f"point {point}: {len(rows):4} {what}")
        if wide:
            for place, name in rows:
                print(f"    {place} {name[:110]}")
    kept = sum(open(path).read().count("// Kept:") for path in glob.glob(TOP + "/crates/*/src/**/*.rt", recursive=True))
    print(f"lines `// Kept:`: {kept}")


main()
