#!/usr/bin/env python3
"""Says which names two crates define, so that one word keeps one meaning.

  tools/names.py [FOLDER]

It reads the crates of a checkout, FOLDER or that of this script: of src/ the public types, traits and functions at the left margin, and of
specs/ what is declared at the left margin. What is `pub(crate)`, methods, and the crates of tests are left out. It prints each name that two
crates or more define, with these crates, and how many such names there are. It fails where there are more than MOST. A name that means the
same in its crates stands in MEANT, and isn't counted.
"""

import pathlib
import re
import sys

MOST = 77

# A type or function of the code, and the definition of the same name that its contract cites; and what each crate says of its own limits or
# words.
MEANT = {'Edge', 'Orientation', 'edge_line', 'files_named', 'given_line', 'last_line', 'limits_law', 'path_line', 'why_line'}

CODE = re.compile(r'^pub (?:struct|enum|trait|type|fn) (\w+)', re.MULTILINE)
WORDS = re.compile(r'^(?:(?:abbrev|unfoldable) (?:pub )?|(?:pub )?(?:record|data) )(\S+)', re.MULTILINE)


def names_in(crate):
    """The names that a crate defines for others."""
    names = set()
    for file in (crate / 'src').rglob('*.rt'):
        names.update(CODE.findall(file.read_text(encoding='utf-8')))
    for file in (crate / 'specs').rglob('*.antt'):
        names.update(WORDS.findall(file.read_text(encoding='utf-8')))
    return names


def main():
    top = pathlib.Path(sys.argv[1]) if len(sys.argv) > 1 else pathlib.Path(__file__).resolve().parent.parent
    crates_of = {}
    for crate in sorted((top / 'crates').iterdir()):
        if crate.name not in ('tor_rows', 'value_tests'):
            for name in names_in(crate):
                crates_of.setdefault(name, []).append(crate.name)
    shared = {name: crates for name, crates in crates_of.items() if len(crates) > 1 and name not in MEANT}
    for name in sorted(shared):
        print(f'{name}: {" ".join(shared[name])}')
    print(f'{len(shared)} names are defined by two crates or more, and {MOST} may be')
    return 0 if len(shared) <= MOST else 1


if __name__ == '__main__':
    sys.exit(main())
