#!/usr/bin/env python3
"""Makes docs/RULES.md and its pictures out of docs/rules/page.md.

Every example is margined by the proved program target/bin/margin and worked out by hand arithmetic in docs/rules/, from
documents 01 and 02 and the circular alone, and so are the factors that target/bin/factors_list prints, the files that
target/bin/day_batch writes after a day (library/programs.sh), and the pairs and amounts that the library's shared object
gives in instalments, pairs taken apart and lists of lines among them, and its accounts of a load (`make`, or the one that
SERPENTGLEAM_LIBRARY_SO names). Where the two differ nothing is written.

usage: python3 docs/make_rules.py             writes the page and the pictures
       python3 docs/make_rules.py --check     exit status 0 where they are what it would write, 1 where they are not
"""
import sys
from pathlib import Path

from rules.agreement import Differs
from rules.blocks import filled
from rules.pictures import pictures

DOCS = Path(__file__).resolve().parent
PROSE, PAGE, PICTURES = DOCS / 'rules' / 'page.md', DOCS / 'RULES.md', DOCS / 'rules'
NOTE = '<!-- Made by docs/make_rules.py from docs/rules/page.md: edit that one and make the page again. -->\n\n'


def made():
    """Each file that the script makes, with its text."""
    files = {PAGE: NOTE + filled(PROSE.read_text('utf-8'))}
    files.update({PICTURES / f'{name}.svg': text for name, text in pictures().items()})
    return files


def stale(files):
    """The files that are missing, other than they would be made, or no longer made."""
    others = [path for path in PICTURES.glob('*.svg') if path not in files]
    return others + [path for path, text in files.items() if not path.exists() or path.read_text('utf-8') != text]


def main(arguments):
    """Exit status 0 where all is in order, 1 where something differs, 2 where the words are wrong."""
    if arguments not in ([], ['--check']):
        print(__doc__, file=sys.stderr)
        return 2
    try:
        files = made()
    except Differs as difference:
        print(f'make_rules.py: {difference}', file=sys.stderr)
        return 1
    if arguments:
        differing = stale(files)
        for path in differing:
            print(f'{path.relative_to(DOCS.parent)} is not what docs/make_rules.py makes', file=sys.stderr)
        print(f'rules: {len(files)} files, {len(differing) or "no"} difference{"s" if len(differing) > 1 else ""}')
        return 1 if differing else 0
    for path, text in files.items():
        path.write_text(text, 'utf-8')
    return 0


if __name__ == '__main__':
    sys.exit(main(sys.argv[1:]))
