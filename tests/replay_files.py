#!/usr/bin/env python3
"""Runs `replay FILE ..` on the files of tools/replay_files.py, all in one call and each by itself, and compares the answers."""
import os
import subprocess
import sys
import tempfile

sys.dont_write_bytecode = True
ROOT = os.path.dirname(os.path.dirname(os.path.abspath(__file__)))
sys.path.insert(0, os.path.join(ROOT, "tools"))
from replay_files import cases  # noqa: E402

REPLAY = os.path.join(ROOT, "target", "bin", "replay")


def difference(folder, rows):
    """Runs replay on the files of these rows. Returns what differs from the answers, or None."""
    names, expected = [row[0] for row in rows], "".join(row[2] + "\n" for row in rows)
    run = subprocess.run([REPLAY, *names], cwd=folder, capture_output=True, text=True)
    if (run.returncode, run.stdout, run.stderr) == (0, expected, ""):
        return None
    return "replay %s: exit status %d\ngot\n%s%sexpected\n%s" % (" ".join(names), run.returncode, run.stdout, run.stderr, expected)


def main():
    if not os.path.exists(REPLAY):
        sys.exit("target/bin/replay is not built")
    rows = cases()
    with tempfile.TemporaryDirectory() as folder:
        for name, content, _ in rows:
            if content is not None:
                with open(os.path.join(folder, name), "wb") as f:
                    f.write(content)
        found = [difference(folder, part) for part in [rows, *([row] for row in rows)]]
    found = [text for text in found if text]
    sys.exit("\n".join(found) if found else 0)


main()
