#!/usr/bin/env python3
"""Checks that the documents agree with the tree: theorems and must-fail edits, layers and imports, paths,
quoted files and line lengths.

Usage: tools/check_documents.py        (from any folder; prints each fault as FILE:LINE: what is wrong)
"""
import functools
import glob
import os
import re
import sys

import theorems

ROOT = os.path.dirname(os.path.dirname(os.path.abspath(__file__)))
HISTORY = 'docs/CHANGES.md'
LAYER_TABLES = ('docs/ARCHITECTURE.md',)
README_LINES = 100
WIDTH = 100
# libraries of the toolchain that crates use beside std
KIT = set()
# a path with a word in place of a name: crates/CRATE/must-fail, bindings/..
PLACEHOLDER = re.compile(r'(?:^|/)(?:CRATE|EDIT|FILE|MODULE|NAME|\.\.)(?:[/.]|$)')
# names of other people's software and standards
OUTSIDE = {'flock', 'nil', 'x-spec'}
FOLDERS = ('crates', 'docs', 'tools', 'bindings', 'bench', 'examples', 'tests')

passed = 0
faults = []


def read(path):
    with open(os.path.join(ROOT, path), encoding='utf-8') as f:
        return f.read()


def lines_of(path):
    return read(path).split('\n')


def check(good, path, line, what):
    global passed
    if good:
        passed += 1
    else:
        faults.append(f'{path}:{line}: {what}')


def cells(line):
    return [cell.strip() for cell in line.strip().strip('|').split('|')]


def is_rule(line):
    return re.fullmatch(r'[|\s:-]+', line) is not None


def tables(path):
    """Each table of a document: the cells of its head, then its rows as (line number, cells)."""
    lines = lines_of(path)
    at = 0
    while at + 1 < len(lines):
        if lines[at].startswith('|') and lines[at + 1].startswith('|') and is_rule(lines[at + 1]):
            head, rows, at = cells(lines[at]), [], at + 2
            while at < len(lines) and lines[at].startswith('|'):
                rows.append((at + 1, cells(lines[at])))
                at += 1
            yield head, rows
        else:
            at += 1


def layers():
    """crates.txt: the crates in order as (name, layer), and what each uses; a comment line begins a layer. `staticlib` may follow a name."""
    layer, result, uses_of = None, [], {}
    for number, line in enumerate(lines_of('crates.txt'), 1):
        if line.startswith('#'):
            layer = line[1:].strip()
        elif ':' in line:
            name, uses = line.split(':')
            name = name.split()[0]
            before = {crate for crate, _ in result} | KIT
            for used in uses.split():
                check(used in before, 'crates.txt', number, f'{name} uses {used}, which is not above it')
            result.append((name, layer))
            uses_of[name] = uses.split()
    return result, uses_of


# (a) docs/THEOREMS.md is up to date and names every edit; tables with a column of edits name edits that there are
def named_edits(path, column, edits):
    """The edits that the last column of the tables with such a head names: `crate`: edit, edit; `crate`: edit."""
    named = set()
    for head, rows in tables(path):
        if head[-1] != column:
            continue
        for number, row in rows:
            check(len(row) == len(head), path, number, f'{len(row)} cells in a table of {len(head)}')
            for group in filter(None, row[-1].split('; ')):
                match = re.fullmatch(r'`([a-z0-9_]+)`: ([a-z0-9_]+(?:, [a-z0-9_]+)*)', group)
                check(match is not None, path, number, f'no crate with its edits: {group}')
                if match:
                    names = match.group(2).split(', ')
                    check(len(names) == len(set(names)), path, number, f'an edit named twice: {group}')
                    for name in names:
                        named.add((match.group(1), name))
                        check((match.group(1), name) in edits, path, number,
                              f'crates/{match.group(1)}/must-fail/{name}.edit does not exist')
    return named


def check_theorems():
    wrong = theorems.faults()
    check(not wrong, theorems.PAGE, 1, 'does not agree with the tree (tools/theorems.py --check)')
    faults.extend(wrong)


# (b) each edit has the house's form and applies
def check_edit(crate, name):
    path = f'crates/{crate}/must-fail/{name}.edit'
    lines = lines_of(path)
    check(re.fullmatch(r'# \S.*\.', lines[0]) is not None and not lines[0].startswith('# rule:'), path, 1,
          'line 1 is not "# " and a sentence with a full stop')
    check(len(lines) > 1 and re.fullmatch(r'# rule: \S.*', lines[1]) is not None, path, 2, 'line 2 is not "# rule: .."')
    for document, words in re.findall(r'(docs/\S+\.md) "([^"]+)"', lines[1]):
        check(exists(document) and words in ' '.join(read(document).split()), path, 2, f'{document} does not have these words')
    file, body, old, pairs = None, None, None, 0
    for number, line in enumerate(lines[2:], 3):
        if line.startswith('file: ') and old is None:
            file = line[6:]
            there = os.path.isfile(os.path.join(ROOT, 'crates', crate, file))
            check(there, path, number, f'there is no crates/{crate}/{file}')
            body = read(f'crates/{crate}/{file}') if there else None
        elif line.startswith('old: ') and file is not None and old is None:
            old = line[5:]
            if body is not None:
                check(body.count(old) == 1, path, number, f'found {body.count(old)} times in {file}')
        elif (line.startswith('new: ') or line == 'new:') and old is not None:
            if body is not None:
                body = body.replace(old, line[5:], 1)
            old, pairs = None, pairs + 1
        elif line or number != len(lines):
            check(False, path, number, 'not a file:, old: or new: line in its place')
    check(pairs > 0 and old is None, path, len(lines), 'no pair of an old: and a new: line, or one without its end')


# (c) the layer tables name the crates of crates.txt, in its order and layers
def relies_on(name, crates, uses_of):
    """What a crate uses: other layers, then crates of its own layer, then the toolchain's libraries."""
    layer_of = dict(crates)
    used = set(uses_of[name])
    others = [layer for layer in dict.fromkeys(layer_of.values())
              if layer != layer_of[name] and any(layer_of.get(crate) == layer for crate in used)]
    own = [crate for crate, layer in crates if crate in used and layer == layer_of[name]]
    return '; '.join(filter(None, (', '.join(others), ', '.join(own), 'toolchain' if used & KIT else '')))


def check_layers(path, crates, uses_of):
    layer_of = dict(crates)
    found = []
    for head, rows in tables(path):
        if head[0] != 'Layer':
            continue
        column = next((i for i, cell in enumerate(head) if cell in ('Crate', 'Crates')), None)
        if column is None:
            continue
        for number, row in rows:
            for name in re.findall(r'`([a-z0-9_]+)`', row[column] if column < len(row) else ''):
                found.append((name, number))
                check(name in layer_of, path, number, f'{name} is not in crates.txt')
                if name in layer_of:
                    check(layer_of[name] == row[0], path, number,
                          f'{name} is in layer "{layer_of[name]}" of crates.txt, not "{row[0]}"')
                if name in layer_of and head[-1] == 'Relies on':
                    right = relies_on(name, crates, uses_of)
                    check(row[-1] == right, path, number, f'{name} relies on: {right}')
    check(bool(found), path, 1, 'no table with the columns Layer and Crate or Crates')
    names = [name for name, _ in found]
    order = [name for name, _ in crates]
    for index, (name, number) in enumerate(found):
        check(name not in names[:index], path, number, f'{name} is named twice')
    for name in order:
        check(not found or name in names, path, 1, f'its layer table does not name {name}')
    present = [name for name in order if name in names]
    listed = [pair for pair in found if pair[0] in layer_of]
    wrong = next((pair for pair, name in zip(listed, present) if pair[0] != name), None)
    check(wrong is None, path, wrong[1] if wrong else 1, f'{wrong[0] if wrong else ""} is not in the order of crates.txt')


# (d) links and paths lead to files
def exists(path):
    return os.path.exists(os.path.join(ROOT, path))


def prose(path):
    """The lines of a document outside its fenced code, with their numbers."""
    fenced = False
    for number, line in enumerate(lines_of(path), 1):
        if line.lstrip().startswith('```'):
            fenced = not fenced
        elif not fenced:
            yield number, line


@functools.lru_cache(maxsize=None)
def anchors(path):
    """The names by which the headings of a document are linked."""
    return {theorems.anchor(line.lstrip('#').strip()) for _, line in prose(path) if line.startswith('#')}


def check_paths(path):
    for number, line in prose(path):
        for target in re.findall(r'\]\(([^)\s]+)\)', line):
            if re.match(r'[a-z]+:', target):
                continue
            file, _, part = target.partition('#')
            file = os.path.normpath(os.path.join(os.path.dirname(path), file)) if file else path
            check(exists(file), path, number, f'link to a missing file: {target}')
            check(not part or not exists(file) or part in anchors(file), path, number, f'link to a missing heading: {target}')
        for code in re.findall(r'`([^`]+)`', line):
            word = code.split()[0].rstrip(',;:')
            if re.match(r'(?:%s)/' % '|'.join(FOLDERS), word) and not PLACEHOLDER.search(word):
                check(bool(glob.glob(os.path.join(ROOT, word))), path, number, f'missing path: {word}')


# (e) names in code are names of the tree
def words_of_tree():
    """Every word of the sources: what a document may name."""
    words = set()
    for folder in FOLDERS + ('.ci',):
        if folder == 'docs':
            continue
        for path in glob.glob(os.path.join(ROOT, folder, '**', '*'), recursive=True):
            words.update(re.findall(r'[A-Za-z0-9]+', os.path.basename(path)))
            words.add(os.path.splitext(os.path.basename(path))[0])
            if os.path.isfile(path) and not path.endswith(('.svg', '.pyc')):
                with open(path, encoding='utf-8', errors='replace') as f:
                    words.update(re.findall(r"[A-Za-z_][\w-]*", f.read()))
    return words


def check_names(path, words):
    for number, line in prose(path):
        for code in re.findall(r'`([^`]+)`', line):
            name = code.rstrip('()')
            if not re.fullmatch(r'[A-Za-z_][\w-]*(?:(?:::|\.)[A-Za-z_][\w-]*)*', name) or name.startswith('_') or name in OUTSIDE:
                continue
            for part in re.split(r'::|\.', name):
                check(part in words or part.isupper(), path, number, f'no such name in the tree: {code}')


# (f) lines of the documents that are wrapped; an indented line after a blank one begins code, in a list it is text; a line
# of a table or of a list of contents may be longer
def check_width(path):
    blank, code = True, False
    for number, line in prose(path):
        code = line.startswith('    ') and (blank or code)
        blank = not line.strip()
        if not line.startswith('|') and not code and not re.fullmatch(r'\s*- \[.*\]\(#.*\)', line):
            check(len(line) <= WIDTH, path, number, f'{len(line)} characters, more than {WIDTH}')


# (g) a quoted file, fenced code that begins with a language and a path, is the file
def check_quotes(path):
    for match in re.finditer(r'^```[a-z]+ (\S+/\S+)\n(.*?)^```$', read(path), re.M | re.S):
        number = read(path).count('\n', 0, match.start()) + 1
        there = os.path.isfile(os.path.join(ROOT, match.group(1)))
        check(there, path, number, f'quotes a missing file: {match.group(1)}')
        if there:
            check(read(match.group(1)).rstrip('\n') == match.group(2).rstrip('\n'), path, number, f'differs from {match.group(1)}')


# (h) no crate imports proofs of another layer
def check_imports(crates):
    layer_of = dict(crates)
    for name, layer in crates:
        for folder in ('src', 'specs', 'proofs'):
            for file in sorted(glob.glob(os.path.join(ROOT, 'crates', name, folder, '**', '*.*'), recursive=True)):
                path = os.path.relpath(file, ROOT)
                if not path.endswith(('.rt', '.antt')):
                    continue
                for number, line in enumerate(lines_of(path), 1):
                    for used in re.findall(r'\bRattle\.([a-z0-9_]+)\.proofs\b|\b([a-z0-9_]+)::proofs::', line):
                        used = used[0] or used[1]
                        check(used in ('std', 'crate') or layer_of.get(used) == layer, path, number,
                              f'imports proofs of {used}, a crate of another layer')


def main():
    crates, uses_of = layers()
    edits = {(name, edit[:-5]) for name, _ in crates if exists(f'crates/{name}/must-fail')
             for edit in os.listdir(os.path.join(ROOT, 'crates', name, 'must-fail')) if edit.endswith('.edit')}
    check_theorems()
    for crate, name in sorted(edits):
        check_edit(crate, name)
    for path in LAYER_TABLES:
        check(exists(path), path, 1, 'missing document')
        if exists(path):
            named_edits(path, 'Edits', edits)
            check_layers(path, crates, uses_of)
    check_imports(crates)
    documents = ['README.md', 'HACKING.md', 'CHANGELOG.md'] + sorted(f'docs/{name}' for name in os.listdir(os.path.join(ROOT, 'docs')) if name.endswith('.md'))
    for found in sorted(glob.glob(os.path.join(ROOT, 'examples/*/README.md')) + glob.glob(os.path.join(ROOT, 'bindings/*/README.md'))):
        path = os.path.relpath(found, ROOT)
        documents.append(path)
    words = words_of_tree()
    check(len(lines_of('README.md')) <= README_LINES + 1, 'README.md', README_LINES, f'more than {README_LINES} lines')
    for path in documents:
        check_width(path)
        if path != HISTORY:
            check_paths(path)
            check_quotes(path)
            check_names(path, words)
    for fault in faults:
        print(fault)
    print(f'documents: {passed} checks passed, {len(faults)} failed')
    return 1 if faults else 0


if __name__ == '__main__':
    sys.exit(main())
