#!/usr/bin/env python3
"""Counts figures of speech in documents and comments, where a plain technical word is clearer. Text in double quotes is left out: papers
are quoted there.

Usage: tools/mannered_words.py [--list] [FOLDER]    (FOLDER: another checkout; --list prints each occurrence)
The exit status is 1 if there are more than LIMIT.
"""
import os
import re
import subprocess
import sys

ROOT = os.path.dirname(os.path.dirname(os.path.abspath(__file__)))
LIMIT = 1262
# what to write instead: is, is in, is defined in, follows; arrives, occurs, is delivered; continues; is no ..; n, that number of; is given
# by, is stated by; is checked against; again, new; a caller that
WORDS = {
    'stands': r'stands?|standing|stood',
    'comes': r'(?:comes?|came|coming)(?! from)',
    'goes on': r'go(?:es)? on|went on|going on',
    'is none': r'(?:is|are|was|were|be) none',
    'so many': r'so many|as many as there',
    'is told': r'(?:is|are|was|were|be|been) told|told (?:by|of|from|apart)|tells?',
    'is held to': r'(?:is|are|was|were|be) held (?:to|against)|holds? (?:it|them|both|our reader) (?:to|against)',
    'is said': r'(?:is|are|was|were|be) said|said (?:of|once)',
    'anew': r'anew',
    'whoever': r'whoever',
    'its like': r'(?:its|their|and the) like',
}
PATTERNS = {name: re.compile(rf'\b(?:{words})\b', re.I) for name, words in WORDS.items()}
LINE_COMMENT = {'.rt': '//', '.rs': '//', '.js': '//', '.antt': '--', '.py': '#', '.sh': '#', '.edit': '#', '.cmake': '#'}
BLOCK_COMMENT = ('.c', '.h', '.css')
DOCUMENT = ('.md',)


def files(folder):
    """The tracked files but docs/THEOREMS.md, which quotes the others."""
    listed = subprocess.run(['git', '-C', folder, 'ls-files'], capture_output=True, text=True, check=True).stdout.split('\n')
    return [path for path in listed if path not in ('', 'docs/THEOREMS.md') and os.path.isfile(os.path.join(folder, path))]


def kind_of(folder, path):
    ending = os.path.splitext(path)[1]
    if ending:
        return ending
    with open(os.path.join(folder, path), 'rb') as f:
        first = f.readline()
    return '.sh' if first.startswith(b'#!') and b'sh' in first else ''


def prose(text, kind):
    """The text of a file that is prose, line by line; other lines are empty."""
    if kind in DOCUMENT:
        fenced = False
        for line in text.split('\n'):
            fenced ^= line.lstrip().startswith('```')
            yield '' if fenced or line.startswith('    ') else re.sub(r'`[^`]*`', '', line)
    elif kind in LINE_COMMENT:
        mark = LINE_COMMENT[kind]
        for line in text.split('\n'):
            found = re.match(r'(?:|.*?\s)%s(?:\s|!|/|$)(.*)' % re.escape(mark), line)
            yield found.group(1) if found else ''
    else:
        inside = False
        for line in text.split('\n'):
            opened = inside or '/*' in line
            yield line.split('/*', 1)[-1] if opened else ''
            inside = opened and '*/' not in line.split('/*', 1)[-1]


def occurrences(folder):
    for path in files(folder):
        kind = kind_of(folder, path)
        if kind not in LINE_COMMENT and kind not in BLOCK_COMMENT and kind not in DOCUMENT:
            continue
        with open(os.path.join(folder, path), encoding='utf-8') as f:
            text = f.read()
        quoted = re.sub(r'"[^"\n]*(?:\n[^"\n]*)?"', lambda m: '\n' * m.group(0).count('\n'), text) if kind in DOCUMENT else text
        for number, line in enumerate(prose(quoted, kind), 1):
            if kind not in DOCUMENT:
                line = re.sub(r'"[^"]*"', '', line)
            for name, pattern in PATTERNS.items():
                for _ in pattern.findall(line):
                    yield path, number, name, line.strip()


def main():
    arguments = [word for word in sys.argv[1:] if word != '--list']
    found = list(occurrences(arguments[0] if arguments else ROOT))
    if '--list' in sys.argv[1:]:
        for path, number, name, line in found:
            print(f'{path}:{number}: {name}: {line}')
    for name in WORDS:
        print(f'{name}: {sum(1 for _, _, word, _ in found if word == name)}')
    print(f'{len(found)} in all, at most {LIMIT}')
    return 1 if len(found) > LIMIT else 0


if __name__ == '__main__':
    sys.exit(main())
