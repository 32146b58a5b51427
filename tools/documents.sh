#!/usr/bin/env bash
# Counts the words of the documents, and says what a reader would stumble over.
#   tools/documents.sh
# It fails where a document has more words than its budget, a sentence more than 30 words, a document's sentences more than 18 on average,
# a table's cell more than 30, or a section more than 700; where a link leads nowhere; and where a name in backticks stands nowhere in the
# tree. Code in backticks counts as one word of a sentence; blocks of code are left out. A budget counts all words, those of code and tables
# too. CHANGELOG and the man pages have none, but their sentences are read.
set -u
cd "$(dirname "$0")/.." || exit 1
command -v python3 > /dev/null || { echo "tools/documents.sh needs python3" >&2; exit 1; }
exec python3 - <<'PY'
import glob
import os
import re
import subprocess
import sys

BUDGETS = {
    'README.md': 1700, 'docs/PROMISES.md': 5320, 'docs/FORMATS.md': 6530, 'docs/DECISIONS.md': 4500, 'docs/ARCHITECTURE.md': 3520,
    'docs/PROVING.md': 2800, 'bench/README.md': 1940, 'docs/CONTRIBUTING.md': 900, 'samples/README.md': 500,
}
ALL_WORDS = 27270
SENTENCE, AVERAGE, CELL, SECTION = 30, 18, 30, 700
FREE = ['CHANGELOG.md']

found = []


def complain(text):
    found.append(text)


def read(name):
    with open(name, encoding='utf-8') as file:
        return file.read()


def prose(text):
    """The text without blocks of code."""
    lines, fenced, blank = [], False, True
    for line in text.split('\n'):
        if line.startswith('```'):
            fenced = not fenced
            line = ''
        indented = line.startswith('    ') and not re.match(r'\s+(- |\d+\. )', line)
        lines.append('' if fenced or indented and blank else line)
        blank = not line.strip() or indented and blank
    return '\n'.join(lines)


def words(text):
    """The words of a sentence or a cell: code in backticks is one, and of a link its text counts."""
    text = re.sub(r'`[^`]*`', 'code', text)
    text = re.sub(r'!?\[([^\]]*)\]\([^)]*\)', r'\1', text)
    return [word for word in text.split() if re.search(r'\w', word)]


def sentences(text):
    """The sentences of paragraphs and list items."""
    paragraph, parts = [], []
    for line in prose(text).split('\n') + ['']:
        item = re.match(r'\s*(?:[-*] |\d+\. |#+ )', line)
        if line.startswith('|') or not line.strip() or item:
            parts.append(' '.join(paragraph))
            paragraph = []
        if line.strip() and not line.startswith(('|', '#')):
            paragraph.append(line[item.end():] if item else line)
    for part in parts:
        hidden = re.sub(r'`[^`]*`', 'Code', part)
        yield from (it for it in re.split(r'(?<=[.!?])[)"*]*\s+(?=[A-Z`(\["*\d])', hidden) if it.strip())


def cells(text):
    for line in prose(text).split('\n'):
        if line.startswith('|'):
            yield from re.split(r'(?<!\\)\|', line)[1:-1]


def sections(text):
    title, body = '', []
    for line in prose(text).split('\n') + ['## ']:
        if re.match(r'##+ ', line):
            yield title, ' '.join(body)
            title, body = line.lstrip('# '), []
        else:
            body.append(line)


def anchors(text):
    """The anchors of a page's headings, as a forge makes them."""
    for title in re.findall(r'(?m)^#+ (.*)$', text):
        plain = re.sub(r'\[([^\]]*)\]\([^)]*\)', r'\1', title)
        yield re.sub(r'[^\w\- ]', '', plain.lower()).replace(' ', '-')


def check_links(name, text):
    for target in re.findall(r'\]\(([^)\s]+)\)', prose(text)):
        if re.match(r'[a-z]+:', target):
            continue
        path, _, anchor = target.partition('#')
        place = os.path.normpath(os.path.join(os.path.dirname(name), path)) if path else name
        if not os.path.exists(place):
            complain(f'{name}: a link to {target}, and there is no {place}')
        elif anchor and anchor not in anchors(read(place)):
            complain(f'{name}: a link to {target}, and {place} has no such heading')


def tree_words():
    """All words that the tree has beside its documents, and the names of its files and folders."""
    listed = subprocess.run(['git', 'ls-files', '--cached', '--others', '--exclude-standard'], capture_output=True, text=True).stdout.split('\n')
    files = [name for name in listed if os.path.isfile(name)] if any(listed) else \
        [path[2:] for path in glob.glob('./**/*', recursive=True) if os.path.isfile(path)]
    names = set()
    for name in files:
        names.update(part for place in (name, os.path.splitext(name)[0]) for part in place.split('/'))
        if not name.endswith('.md') and '/out/' not in name and os.path.getsize(name) < 2 ** 21:
            with open(name, encoding='utf-8', errors='replace') as file:
                names.update(re.findall(r'[\w-]+', file.read()))
    return names, files


# A name in backticks that is looked for: a path of the tree, a word with an underscore or a capital within, or names joined by `::`.
def check_names(name, text, known, files):
    for code in re.findall(r'`([^`\n]+)`', prose(text)):
        code = code.strip()
        if re.fullmatch(r'(?:crates|docs|bench|tools|man|samples|completions)/[\w./-]*', code):
            if not os.path.exists(code) and not any(file.startswith(code.rstrip('/') + '/') for file in files):
                complain(f'{name}: `{code}` is not there')
        elif re.fullmatch(r'\w+(?:::\w+)*(?:\(\))?', code) and re.search(r'_|::|[a-z][A-Z]', code):
            for part in re.findall(r'\w+', code):
                if part not in known:
                    complain(f'{name}: `{code}`, and nothing in the tree is called {part}')


def check_text(name, text):
    lengths = []
    for sentence in sentences(text):
        length = len(words(sentence))
        lengths.append(length)
        if length > SENTENCE:
            complain(f'{name}: a sentence of {length} words: {sentence[:70]} ..')
    for cell in cells(text):
        if len(words(cell)) > CELL:
            complain(f'{name}: a cell of {len(words(cell))} words: {cell.strip()[:70]} ..')
    return sum(lengths) / max(1, len(lengths))


def check_page(name):
    """A man page: a sentence goes on over lines and macros until a line that ends with a full stop."""
    sentence, literal = [], False
    for line in read(name).split('\n'):
        if re.match(r'\.(Bd|Ed)', line):
            literal = line.startswith('.Bd')
        if literal or re.match(r'\.(Sh|Ss|It|Bl|El|Bd|Ed|Pp|Dd|Dt|Os|Op|Nd|Xr .* [0-9] [,.]$)', line) and not line.startswith('.Xr'):
            sentence = []
            continue
        sentence += [word for word in line.lstrip('.').split() if re.search(r'\w', word) and not re.fullmatch('[A-Z][a-z]', word)]
        if re.search(r'[.:]$', line):
            if len(sentence) > SENTENCE:
                complain(f'{name}: a sentence of {len(sentence)} words: {" ".join(sentence)[:70]} ..')
            sentence = []


def main():
    known, files = tree_words()
    total, told = 0, []
    for name in [*BUDGETS, *FREE]:
        if not os.path.exists(name):
            complain(f'{name} is not there')
            continue
        text = read(name)
        average = check_text(name, text)
        check_links(name, text)
        if name != 'CHANGELOG.md':
            check_names(name, text, known, files)
        if name in BUDGETS:
            count = len(text.split())
            total += count
            told.append(f'{name} {count:,}')
            if count > BUDGETS[name]:
                complain(f'{name}: {count:,} words, and {BUDGETS[name]:,} are its budget')
            if average > AVERAGE:
                complain(f'{name}: {average:.1f} words a sentence, and {AVERAGE} are the most')
            for title, body in sections(text):
                if len(body.split()) > SECTION:
                    complain(f'{name}: the section "{title}" has {len(body.split())} words')
    for name in sorted(glob.glob('man/*.1')):
        check_page(name)
    if total > ALL_WORDS:
        complain(f'{total:,} words in all, and {ALL_WORDS:,} are the budget')
    for line in found:
        print(line, file=sys.stderr)
    if found:
        sys.exit(f'the documents have {len(found)} faults')
    print(f'the documents have {total:,} words: {", ".join(told)}')


main()
PY
