"""Recorded traces as files and what replay answers for each, which tests/replay_files.py runs.

The trace is the one of tools/replay_edges.py. The longest trace that is accepted is a node that is made and then polled, which document 01
refuses with PHASE while the node is idle, and hears one frame. The answers are derived by hand, here and there: nothing is taken from the
program.
"""
from replay_edges import TRACE, NOTHING, new_node, node, poll, verified

LONGEST = 1048576


def longest():
    """A trace of exactly the longest length, and what is seen of it."""
    first, last = new_node(0, b"\xca\xfe"), verified(1, 1)
    polls, left = divmod(LONGEST - len(first) - len(last), len(poll(0)))
    assert left == 0
    seen = "records=1/0/0/0/1/%d refusals=[14:1,16:%d] switches=0 wait=0 " % (polls, polls)
    return first + poll(0) * polls + last, seen + node(0, ("idle", 0, 0, 0, 0), "h'cafe'")


def cases():
    """Names of files in the order of the arguments, each with its content, or None where there is no such file, and its answer."""
    trace, seen = b"".join(record for record, _ in TRACE), TRACE[-1][1]
    whole, seen_whole = longest()
    return [
        ("trace", trace, "complete " + seen),
        ("cut", trace[:-1], "stopped %d %s" % (len(trace) - len(TRACE[-1][0]), TRACE[-2][1])),
        ("empty", b"", "complete " + NOTHING),
        ("missing", None, "error file"),
        (".", None, "error file"),
        ("longest", whole, "complete " + seen_whole),
        ("longer", whole + b"\6", "error long"),
        ("trace", trace, "complete " + seen),
    ]
