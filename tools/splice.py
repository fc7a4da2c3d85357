"""Replaces the part of a program's input and expected output (crates/CRATE/stdin and stdout) that a script of this folder makes.

A part begins with the comment `# Lines of tools/SCRIPT` and ends before the next such comment or at the end of the file. What precedes
the first one was recorded or given. Running a script again therefore replaces its own part and leaves all others.
"""
import os

ROOT = os.path.dirname(os.path.dirname(os.path.abspath(__file__)))
HEADING = b"# Lines of tools/"


def is_answered(line):
    """Whether a tool answers the line: it is not empty and not a comment."""
    text = line.removesuffix(b"\r").strip(b" ")
    return text != b"" and not text.startswith(b"#")


def read(crate, name):
    """The lines of a crate's file, and whether the last one ends with LF."""
    with open(os.path.join(ROOT, "crates", crate, name), "rb") as f:
        lines = f.read().split(b"\n")
    return (lines[:-1], True) if lines[-1] == b"" else (lines, False)


def write(crate, name, lines, ended=True):
    with open(os.path.join(ROOT, "crates", crate, name), "wb") as f:
        f.write(b"\n".join(lines) + (b"\n" if ended else b""))


def answered(crate):
    """Each line of the crate's input with its answer: None for an empty line and a comment."""
    answers = iter(read(crate, "stdout")[0])
    pairs = [(line, next(answers) if is_answered(line) else None) for line in read(crate, "stdin")[0]]
    assert next(answers, None) is None, "crates/%s: more answers than lines" % crate
    return pairs


def parts(pairs):
    """The lines by the heading that they come after; those before the first heading have the key b""."""
    found, heading = {b"": []}, b""
    for line, answer in pairs:
        if line.startswith(HEADING):
            heading = line
            found[heading] = []
        else:
            found[heading].append((line, answer))
    return found


def put(crate, found, ended):
    """Writes the crate's input and expected output, part by part."""
    whole = [pair for heading, pairs in found.items() for pair in ([(heading, None)] if heading else []) + pairs]
    write(crate, "stdin", [line for line, _ in whole], ended)
    write(crate, "stdout", [answer for _, answer in whole if answer is not None])


def splice(crate, script, made, before=None, ended=True):
    """Replaces the script's part by these lines with their answers. A new part is last, or before the part of the script `before`.
    Without `ended` the last line has no LF, if the part is the last one."""
    heading = HEADING + script.encode()
    made = [(line.encode() if isinstance(line, str) else line, None if answer is None else answer.encode()) for line, answer in made]
    for line, answer in made:
        assert is_answered(line) == (answer is not None), line[:200]
    found = parts(answered(crate))
    order = list(found)
    if heading not in found:
        order.insert(order.index(HEADING + before.encode()) if before else len(order), heading)
    if order[-1] != heading:
        ended = read(crate, "stdin")[1]
    found[heading] = made
    put(crate, {part: found[part] for part in order}, ended)
