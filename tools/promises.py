#!/usr/bin/env python3
"""Prints what each crate promises: the index that docs/PROMISES.md leaves out, read from the sources.

  tools/promises.py [CRATE]

For each crate, in the order of crates.txt: its public functions and methods, each with the first sentence of its doc line and with the
names of the clauses of its contract; and the public definitions of its specs, each with the first sentence of its comment. A clause
without a name is printed as `_`. A name counts as public where the crate's lib.rt exports it, or its type.
"""
import glob
import os
import re
import signal
import sys

ROOT = os.path.dirname(os.path.dirname(os.path.realpath(__file__)))

FUNCTION = re.compile(r'( *)(pub )?fn (\w+)')
BLOCK = re.compile(r'(pub trait|impl)(?:<.*?>+)? (?:.*\bfor )?(\w+)')
CLAUSE = re.compile(r'\s+(requires|ensures)\*? *(\w*) *\{')
DEFINITION = re.compile(r' *(?:(?:abbrev|unfoldable) pub|pub (?:record|data)) (\S+)')


def lines_of(path):
    """The lines of a file, and none where it isn't there."""
    if not os.path.exists(path):
        return []
    with open(path, encoding='utf-8') as file:
        return file.read().split('\n')


def first_sentence(lines, place, mark):
    """The first sentence of the comment right above this line; attributes may stand between them."""
    words = []
    for line in reversed(lines[:place]):
        text = line.strip()
        if text.startswith(mark) and not text.startswith('-- ----'):
            words.insert(0, text[len(mark):].strip())
        elif not text.startswith('#['):
            break
    return re.split(r'(?<!\b[A-Z])(?<=\.) (?=[A-Z`"])', ' '.join(words))[0]


def exported(crate):
    """The names that lib.rt exports or defines, and the types for which such a name is another one."""
    text = '\n'.join(lines_of(f'{crate}/src/lib.rt'))
    names = set()
    for group in re.findall(r'pub use ([^;]+);', text):
        names.update(re.findall(r'\w+', group))
    names.update(re.findall(r'^pub (?:fn|struct|enum|trait) (\w+)', text, re.M))
    for path in glob.glob(f'{crate}/src/**/*.rt', recursive=True):
        names.update(other for name, other in re.findall(r'^pub type (\w+) = (\w+)', '\n'.join(lines_of(path)), re.M) if name in names)
    return names


def clauses_of(lines, place, indent):
    """The names of the clauses of the function that begins in this line, by `requires` and `ensures`."""
    found = {'requires': [], 'ensures': []}
    for line in lines[place:]:
        clause = CLAUSE.match(line)
        if clause and clause[0].startswith(indent + '    '):
            found[clause[1]].append(clause[2] or '_')
        elif re.match(indent + r'(\)|(pub )?fn ).*[{;]$|' + indent + r'[{}]', line):
            break
        if line.endswith('};'):
            break
    return found


def functions_of(path, names):
    """The public functions and methods of a file: name, sentence and clauses."""
    lines, block = lines_of(path), None
    for place, line in enumerate(lines):
        head = BLOCK.match(line)
        if head:
            block = head
        elif line == '}':
            block = None
        function = FUNCTION.match(line)
        if not function or len(function[1]) not in (0, 4):
            continue
        indent, is_public, name = function.groups()
        is_public = is_public or (indent and block and block[1] == 'pub trait')
        owner = block[2] if indent and block else name
        if is_public and owner in names:
            yield (f'{owner}::{name}' if indent else name, first_sentence(lines, place, '///'), clauses_of(lines, place, indent))


def definitions_of(path):
    """The public definitions of a file of specs: name and sentence."""
    lines = lines_of(path)
    for place, line in enumerate(lines):
        definition = DEFINITION.match(line)
        if definition:
            yield definition[1], first_sentence(lines, place, '--')


def show(crate):
    """Prints the index of a crate."""
    print(f'## {os.path.basename(crate)}')
    names = exported(crate)
    for path in sorted(glob.glob(f'{crate}/src/**/*.rt', recursive=True)):
        functions = list(functions_of(path, names))
        if functions:
            print(f'\n{os.path.relpath(path, ROOT)}')
        for name, sentence, clauses in functions:
            print(f'  {name}: {sentence}')
            for kind, found in clauses.items():
                if found:
                    print(f'      {kind} {", ".join(found)}')
    for path in sorted(glob.glob(f'{crate}/specs/**/*.antt', recursive=True)):
        definitions = list(definitions_of(path))
        if definitions:
            print(f'\n{os.path.relpath(path, ROOT)}')
        for name, sentence in definitions:
            print(f'  {name}: {sentence}' if sentence else f'  {name}')
    print()


def main():
    signal.signal(signal.SIGPIPE, signal.SIG_DFL)
    listed = [line.split(':')[0] for line in lines_of(f'{ROOT}/crates.txt') if ':' in line and not line.startswith('#')]
    wanted = sys.argv[1:] or listed
    if len(sys.argv) > 2 or not set(wanted) <= set(listed):
        print('usage: tools/promises.py [CRATE], a crate of crates.txt', file=sys.stderr)
        return 2
    for name in wanted:
        show(f'{ROOT}/crates/{name}')
    return 0


if __name__ == '__main__':
    sys.exit(main())
