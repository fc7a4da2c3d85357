#!/usr/bin/env python3
"""Writes docs/THEOREMS.md from docs/theorems.txt: each claim with its statement quoted from specs/, the contracts of the functions that
carry it, and its must-fail edits with their first lines.

Usage: tools/theorems.py            write docs/THEOREMS.md
       tools/theorems.py --check    write nothing; exit status 1 if the page is not up to date or a name is missing

Lines of docs/theorems.txt (a line that begins with # is a comment):
  == HEADING                    a section; text up to the next mark follows it
  = HEADING                     a claim; the sentences below it say it in words
  state: CRATE FILE: NAME ..    definitions to quote, from crates/CRATE/specs/FILE.antt
  see: CRATE FILE: NAME ..      definitions to name
  by: CRATE::FUNCTION ..        functions that carry the claim (CRATE::Type::method for a method)
  edit: CRATE: NAME ..          must-fail edits that try it
  text: ..                      a line of the section, after its claims, taken as it is
"""
import glob
import os
import re
import sys

ROOT = os.path.dirname(os.path.dirname(os.path.abspath(__file__)))
SOURCE = 'docs/theorems.txt'
PAGE = 'docs/THEOREMS.md'
WIDTH = 100


class Missing(Exception):
    """A name of docs/theorems.txt that the tree does not have."""


def read(path):
    with open(os.path.join(ROOT, path), encoding='utf-8') as f:
        return f.read()


def exists(path):
    return os.path.isfile(os.path.join(ROOT, path))


# ---- docs/theorems.txt
class Claim:
    def __init__(self, heading, line):
        self.heading, self.line = heading, line
        self.words, self.state, self.see, self.by, self.edits = [], [], [], [], []


class Section:
    def __init__(self, heading):
        self.heading, self.words, self.claims, self.text = heading, [], [], []


def names_of(rest, line):
    """`CRATE FILE: NAME ..` as (crate, file, names); `CRATE: NAME ..` has no file."""
    match = re.fullmatch(r'(\w+)(?: ([\w.]+))?: (\S+(?: \S+)*)', rest)
    if not match:
        raise Missing(f'{SOURCE}:{line}: not of the form CRATE FILE: NAME ..')
    return match.group(1), match.group(2), match.group(3).split()


def sections():
    found = []
    for number, line in enumerate(read(SOURCE).split('\n'), 1):
        item = found[-1].claims[-1] if found and found[-1].claims else found[-1] if found else None
        if line.startswith('#'):
            continue
        if line.startswith('== '):
            found.append(Section(line[3:]))
        elif line.startswith('= '):
            found[-1].claims.append(Claim(line[2:], number))
        elif line.startswith(('state: ', 'see: ')):
            getattr(item, line.split(':')[0]).append((*names_of(line.split(': ', 1)[1], number), number))
        elif line.startswith('by: '):
            item.by += [(name, number) for name in line[4:].split()]
        elif line.startswith('edit: '):
            crate, _, names = names_of(line[6:], number)
            item.edits += [(crate, name, number) for name in names]
        elif line.startswith('text: '):
            found[-1].text.append(line[6:])
        elif item is not None:
            item.words.append(line)
    return found


# ---- the tree
def specs_path(crate, file):
    return f'crates/{crate}/specs/{file.replace(".", "/")}.antt'


def definition(path, name):
    """A definition as it is in its file: the comment lines just above it, its signature or head, and its clauses."""
    lines = read(path).split('\n')
    word = re.escape(name)
    head = re.compile(rf'(?:(?:unfoldable|abbrev|opaque|pub|record|data|mutual) )+{word}(?![\w·-])|{word} (?:.* )?=(?: |$)|{word} :')
    start = next((at for at, line in enumerate(lines) if head.match(line)), None)
    if start is None:
        return None
    end = start + 1
    while end < len(lines) and (lines[end].startswith((' ', f'{name} ')) or lines[end] == name):
        end += 1
    if end < len(lines) and lines[end] == '}':
        end += 1
    while start and lines[start - 1].startswith('-- ') and not lines[start - 1].startswith('-- --'):
        start -= 1
    return lines[start:end]


def sources(crate, modules):
    """The source files of a crate, or of a module in it; `lib.rt` first."""
    inside = '/'.join(['src'] + modules)
    files = [os.path.relpath(file, ROOT) for file in glob.glob(os.path.join(ROOT, 'crates', crate, 'src', '**', '*.rt'), recursive=True)]
    return sorted((file for file in files if not modules or f'/{inside}.rt' in file or f'/{inside}/' in file),
                  key=lambda file: (not file.endswith('/lib.rt'), file))


def contract(full):
    """The path of a function's file and its signature with its contract; (None, None) if there is no such function."""
    crate, *modules, name = full.split('::')
    owner = modules.pop() if modules and modules[-1][0].isupper() else None
    head = re.compile(rf'\s*(?:pub(?:\(crate\))? )?(?:extern "C" )?fn {name}\b')
    for path in sources(crate, modules):
        lines = read(path).split('\n')
        inside = None
        for at, line in enumerate(lines):
            opened = re.match(r'impl(?:<[^>]*>)? (\w+)', line)
            inside = opened.group(1) if opened else None if line == '}' else inside
            if head.match(line) and inside == owner:
                end = at
                while lines[end].strip() not in ('{', '{}') and not lines[end].endswith(' {'):
                    end += 1
                indent = len(line) - len(line.lstrip())
                rows = [row[indent:] for row in lines[at:end]] or [line.strip().removesuffix(' {')]
                return path, joined(rows)
    return None, None


def joined(rows):
    """A signature over several lines on one, where it has room."""
    cut = next((at for at, row in enumerate(rows) if row.lstrip().startswith(('requires', 'ensures', 'decreases'))), len(rows))
    one = re.sub(r',? \)', ')', re.sub(r'\( ', '(', ' '.join(row.strip() for row in rows[:cut])))
    return ([one] if len(one) <= 140 else rows[:cut]) + rows[cut:]


def edits_of_tree():
    return sorted((path.split(os.sep)[-3], os.path.basename(path)[:-5])
                  for path in glob.glob(os.path.join(ROOT, 'crates', '*', 'must-fail', '*.edit')))


# ---- the page
def wrapped(words, first='', rest=''):
    line, out = first, []
    for word in ' '.join(words).split():
        if len(line) + len(word) + (line not in (first, rest)) > WIDTH and line not in (first, rest):
            out.append(line)
            line = rest
        line += (' ' if line not in (first, rest) else '') + word
    return out + [line]


def paragraphs(lines):
    """Text of docs/theorems.txt: lines that follow each other are a paragraph, those of a table or a list stay as they are."""
    out, open_ = [], []
    for line in lines + ['']:
        if line and not line.startswith(('|', '- ', '  ')):
            open_.append(line)
            continue
        if open_:
            out += wrapped(open_) + ['']
            open_ = []
        if line:
            out.append(line)
        elif out and out[-1]:
            out.append('')
    return out


def quoted(claim):
    """The definitions to quote, each file's after its path."""
    rows = []
    for crate, file, names, line in claim.state:
        path = specs_path(crate, file)
        if not exists(path):
            raise Missing(f'{SOURCE}:{line}: there is no {path}')
        rows += ([''] if rows else []) + [f'-- {path}']
        for name in names:
            found = definition(path, name)
            if found is None:
                raise Missing(f'{SOURCE}:{line}: {path} does not define {name}')
            rows += found if name == names[0] else [''] + found
    return rows


def seen(claim):
    for crate, file, names, line in claim.see:
        path = specs_path(crate, file)
        if not exists(path):
            raise Missing(f'{SOURCE}:{line}: there is no {path}')
        text = read(path)
        for name in names:
            if not re.search(rf'^\s*(?:(?:unfoldable|abbrev|opaque|pub|record|data) )*{re.escape(name)}(?![\w·-])', text, re.M):
                raise Missing(f'{SOURCE}:{line}: {path} does not define {name}')
        yield f'`{path}`: ' + ', '.join(f'`{name}`' for name in names)


def contracts(claim, before):
    """Of the functions of a claim: the laws, which compute nothing; contracts to quote; those that an earlier claim quotes."""
    laws, rows, again, last = [], [], [], None
    for full, line in claim.by:
        path, found = contract(full)
        if path is None:
            raise Missing(f'{SOURCE}:{line}: there is no function {full}')
        only = re.fullmatch(r'\s*ensures \{ (.+) \}', found[1]) if len(found) == 2 else None
        if only and '->' not in found[0]:
            laws.append(f'`{full}` (ensures `{only.group(1)}`)')
        elif full in before:
            again.append(f'`{full}`')
        else:
            owner = full.split('::')[-2]
            place = f'// {path}' + (f', {owner}' if owner[0].isupper() else '')
            rows += ([place] if place != last else []) + found
            last = place
            before.add(full)
    return laws, rows, again


def claim_page(claim, before):
    out = [f'### {claim.heading}', ''] + paragraphs(claim.words)
    laws, rows, again = contracts(claim, before)
    if laws:
        out += wrapped(['Carried by ' + ', '.join(laws) + '.']) + ['']
    if rows:
        out += ['```rust'] + rows + ['```', '']
    if again:
        out += wrapped([('Also carried by ' if laws or rows else 'Carried by ') + ', '.join(again) + ', quoted above.']) + ['']
    if claim.state:
        out += ['```antt'] + quoted(claim) + ['```', '']
    named = list(seen(claim))
    if named:
        out += wrapped(['Definitions: ' + '; '.join(named) + '.']) + ['']
    if claim.edits:
        out += ['Must-fail edits:', '']
        for crate, name, line in claim.edits:
            path = f'crates/{crate}/must-fail/{name}.edit'
            if not exists(path):
                raise Missing(f'{SOURCE}:{line}: there is no {path}')
            out += wrapped([f'`{crate}/{name}`: ' + read(path).split('\n')[0].removeprefix('# ')], '- ', '  ')
        out.append('')
    return out


def anchor(heading):
    return re.sub(r'[^\w\- ]', '', heading.lower()).replace(' ', '-')


def page(found, count):
    out = ['# Theorems', '', '<!-- Written by tools/theorems.py from docs/theorems.txt and the sources; edit those. -->', '']
    head = found[0]
    out += paragraphs(head.words)
    out += [f'The tree has {count} must-fail edits; each is listed under every claim that it tries.', '']
    for section in found[1:]:
        out.append(f'- [{section.heading}](#{anchor(section.heading)})')
        out += [f'  - [{claim.heading}](#{anchor(claim.heading)})' for claim in section.claims]
    out.append('')
    before = set()
    for section in found[1:]:
        out += [f'## {section.heading}', ''] + paragraphs(section.words)
        for claim in section.claims:
            out += claim_page(claim, before)
        out += section.text + ([''] if section.text else [])
    return '\n'.join(out).rstrip('\n') + '\n'


def faults():
    """What is wrong with docs/theorems.txt or the page, one line each."""
    edits = edits_of_tree()
    try:
        found = sections()
        text = page(found, len(edits))
    except Missing as fault:
        return [str(fault)]
    named = {(crate, name) for section in found for claim in section.claims for crate, name, _ in claim.edits}
    out = [f'crates/{crate}/must-fail/{name}.edit:1: {SOURCE} does not name it (add "edit: {crate}: {name}" to a claim)'
           for crate, name in edits if (crate, name) not in named]
    if not exists(PAGE) or read(PAGE) != text:
        out.append(f'{PAGE}:1: not up to date (run tools/theorems.py)')
    return out


def main():
    if sys.argv[1:] == ['--check']:
        wrong = faults()
        print('\n'.join(wrong) if wrong else f'{PAGE} is up to date')
        return 1 if wrong else 0
    if sys.argv[1:]:
        print(__doc__)
        return 2
    try:
        text = page(sections(), len(edits_of_tree()))
    except Missing as fault:
        print(fault)
        return 1
    with open(os.path.join(ROOT, PAGE), 'w', encoding='utf-8') as f:
        f.write(text)
    return 0


if __name__ == '__main__':
    sys.exit(main())
