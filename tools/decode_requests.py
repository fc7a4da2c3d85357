#!/usr/bin/env python3
"""decode_requests.py N RECORDED.in RECORDED.out: puts a recorded stream of commands and its answers into crates/decode/stdin and stdout, as the
part headed `# Request N`.

The stream was answered by a tool that knew paper 02's requests up to N. A line is left out if it names a command or a reading of a later
request, which has another answer since. All other lines are added with their recorded answers, word for word. decode_rewrites.py, run
afterwards, adds the round trips of new payloads.
"""
import re
import sys

from splice import answered, is_answered, parts, put, read

HEAD = re.compile(rb"^# Request (\d+)$")
COMMANDS = {b"merge": 10, b"store": 12, b"part": 12, b"end": 12, b"reset": 12}
NEW_FORM = re.compile(rb"^(strict-)?new-(request|configuration)$")


def request_of(words):
    """The request with which this line's command and reading began; 0 for those of earlier ones."""
    form = 11 if any(NEW_FORM.match(w) for w in words[:2]) else 0
    return max(form, COMMANDS.get(words[0], 0))


def words_of(line):
    """A line's words; a carriage return at its very end is none of it."""
    return [w for w in (line[:-1] if line.endswith(b"\r") else line).split(b" ") if w]


def kept(level, pairs):
    """The lines that stay, with their answers."""
    for line, said in pairs:
        if request_of(words_of(line) or [b""]) <= level:
            yield line, said


def recorded(commands, answers):
    """The lines of a recorded stream with their answers."""
    answers = iter(open(answers, "rb").read().split(b"\n"))
    lines = open(commands, "rb").read().split(b"\n")
    return [(line, next(answers) if is_answered(line) else None) for line in (lines[:-1] if lines[-1] == b"" else lines)]


def number_of(head):
    """A part's number: 0 for what stands before the first heading."""
    return int(HEAD.match(head).group(1)) if head else 0


def main():
    level = int(sys.argv[1])
    found = parts(answered("decode"))
    head = b"# Request %d" % level
    requests = {b"": []}
    request = b""
    for line, said in found[b""]:
        if HEAD.match(line):
            request = line
            requests[request] = []
        requests[request].append((line, said))
    requests[head] = [(head, None)] + list(kept(level, recorded(sys.argv[2], sys.argv[3])))
    found[b""] = [pair for request in sorted(requests, key=number_of) for pair in requests[request]]
    put("decode", found, read("decode", "stdin")[1])


main()
