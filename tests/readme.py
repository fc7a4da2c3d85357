#!/usr/bin/env python3
"""Runs the commands of README.md and docs/TOOLS.md as they are printed. An indented line that begins with `$ ` is a command, and the
indented lines after it are its output, which is compared. An indented line of README without `$` is a command too: the first must print
examples/rekey.out; the gate and the library's tests, which the others are part of, run those."""
import os
import shutil
import subprocess
import sys

ROOT = os.path.dirname(os.path.dirname(os.path.abspath(__file__)))
INDENT = "    "
SEE_IT_RUN = "target/bin/simulate --echo < examples/rekey.txt"
# where README's other commands are run
ELSEWHERE = {".ci/run": "the gate itself", "bindings/install.sh PREFIX": "bindings/test", "cc board.c ": "bindings/test"}


def read(path):
    with open(os.path.join(ROOT, path), encoding="utf-8") as f:
        return f.read()


def indented(text):
    """The indented lines of a document outside its fenced code, without their indent; None between two blocks."""
    fenced, before = False, False
    for line in text.splitlines():
        fenced ^= line.startswith("```")
        if line.startswith(INDENT) and not fenced:
            yield line.removeprefix(INDENT)
        elif before:
            yield None
        before = line.startswith(INDENT)


def dialogues(path):
    """Each command with the output that is printed below it."""
    found, command = [], False
    for line in indented(read(path)):
        if line is not None and line.startswith("$ "):
            found.append((line[2:], ""))
            command = True
        elif line is not None and command:
            found[-1] = (found[-1][0], found[-1][1] + line + "\n")
        else:
            command = False
    return found


def bare(path):
    return [line for line in indented(read(path)) if line is not None and not line.startswith("$ ")]


def differs(line, expected):
    """Whether a command prints something else; what rt says on standard error does not count."""
    run = subprocess.run(["bash", "-c", line], cwd=ROOT, capture_output=True, text=True)
    if (run.returncode, run.stdout) == (0, expected) and (run.stderr == "" or line.endswith(SEE_IT_RUN)):
        return False
    print("$ %s\nexit status %d\ngot\n%s%sexpected\n%s" % (line, run.returncode, run.stdout, run.stderr, expected))
    return True


def main():
    every = dialogues("README.md") + dialogues("docs/TOOLS.md")
    skipped = 0
    for line in bare("README.md"):
        if line.endswith(SEE_IT_RUN):
            if shutil.which("rt"):
                every.append((line, read("examples/rekey.out")))
            else:
                skipped += 1
                print("not run, because rt is not installed: %s" % line)
        elif not any(line.startswith(start) for start in ELSEWHERE):
            sys.exit("no test runs this command of README.md: %s" % line)
    differ = sum(differs(line, expected) for line, expected in every)
    print("%d commands, %d differ, %d not run" % (len(every), differ, skipped))
    sys.exit(0 if every and not differ else 1)


main()
