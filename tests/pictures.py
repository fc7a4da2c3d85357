#!/usr/bin/env python3
"""Checks that the pictures in docs/pictures are those that their scripts, tools/draw_NAME.py, draw of the present tree."""
import glob
import os
import subprocess
import sys

ROOT = os.path.dirname(os.path.dirname(os.path.abspath(__file__)))


def names(pattern, front, end):
    return sorted(os.path.basename(path)[len(front) : -len(end)] for path in glob.glob(os.path.join(ROOT, pattern)))


def main():
    drawn, stored = names("tools/draw_*.py", "draw_", ".py"), names("docs/pictures/*", "", ".svg")
    if not drawn or drawn != stored:
        sys.exit("tools/draw_*.py are %s, docs/pictures has %s" % (drawn, stored))
    failed = 0
    for name in drawn:
        failed |= subprocess.run([sys.executable, os.path.join(ROOT, "tools", "draw_%s.py" % name), "--check"]).returncode
    sys.exit(failed)


main()
