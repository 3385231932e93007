#!/usr/bin/env python3
"""Sees that the definitions and lemmas that README.md and the documents name between backquotes stand in crates/.

    python3 tools/names_in_documents.py            # status 1 and a line each where a name is not there
    python3 tools/names_in_documents.py respell    # first writes names of the older spelling as respell_names.py did in crates/

A name is looked for as `Module.name` in the files Module.antt, and by itself where it has an underscore or a dash: among the
words of crates/ and of the other folders, and the names of files. docs/LANDINGS.md keeps the names of its time but in its last
section.
"""
import os
import re
import subprocess
import sys

from respell_names import TOKEN, table

TOP = os.path.dirname(os.path.dirname(os.path.abspath(__file__)))
DOCUMENTS = ('README.md', 'docs/READING.md', 'docs/DECISIONS.md', 'docs/TESTING.md', 'docs/PERFORMANCE.md', 'docs/LANDINGS.md')
# Those that port.py respelled, and not respell_names.py.
BY_PORT = """above-apart afterCall all-done all-left all-pass apart-parts bytes-after each-line entry-zero first-count flagsOf
    four-bytes headOf isWritten layout-is lines-are list-length load-told low-by low-values madeOf markOf no-lines none-allowed
    none-written not-made orElse owes-nothing pair-goes positionOf read-first reb-none refusal-is root-by row-within same-length
    told-is u8At u32At""".split()
# Programs of others.
OTHERS = {'dask-scheduler', 'dask-worker'}
# Words of an account's text, and by themselves no names of crates/.
WORDS_OF_THE_TEXT = {'`knocked-in`', '`knocked-out`'}
# What a name of the older spelling has.
OLDER = re.compile('-|[a-z0-9][A-Z]')
SPAN = re.compile(r'`([^`\n]*(?:\n[^`\n]*)?)`')
FENCED = re.compile(r'^```.*?^```', re.MULTILINE | re.DOTALL)
WORD = re.compile(r'\w+')
DASHED = re.compile(r'\w+(?:-\w+)+')
NAME = re.compile(r"[A-Za-z]\w*[_-][\w-]*'?")
QUALIFIED = re.compile(r'([A-Z]\w*)\.([^\s(){}.,]+)')


def text_of(path):
    with open(os.path.join(TOP, path), encoding='utf-8') as file:
        return file.read()


def tracked():
    return subprocess.run(['git', 'ls-files'], cwd=TOP, capture_output=True, text=True, check=True).stdout.split('\n')[:-1]


def declared(text):
    """The names before a colon of a file of definitions or lemmas: its own, and those of fields and cases."""
    names = set()
    for line in text.split('\n'):
        code = line.split('--')[0]
        head = re.split(r' [:=]|[({]', code, maxsplit=1)[0]
        if head != code or code.lstrip().startswith(('pub', 'abbrev', 'record', 'data', '|')):
            names |= set(head.split()) - {'pub', 'abbrev', 'record', 'data', 'unfoldable', '|'}
    return names


def names_of_crates(files):
    """Of each module, by its file's name, the names that it declares; and every word of crates/ and of the names of files."""
    modules, words = {}, set()
    for path in files:
        words |= set(WORD.findall(path))
        if path.startswith('crates/') and path.endswith(('.antt', '.rt')):
            text = text_of(path)
            words |= set(TOKEN.findall(text))
            if path.endswith('.antt'):
                modules.setdefault(os.path.basename(path).removesuffix('.antt'), set()).update(declared(text))
        elif path.endswith(('.py', '.rs', '.c', '.h', '.sh', '.toml', '.1')) or os.path.basename(path) == 'Makefile':
            words |= set(WORD.findall(text_of(path))) | set(DASHED.findall(text_of(path)))
    return modules, words


def parts(path):
    """The text of a document in pieces, each with whether names in it are today's: all, or of LANDINGS.md the last section."""
    text = text_of(path)
    if not path.endswith('LANDINGS.md'):
        return [(text, True)]
    last = text.rindex('\n## ')
    return [(text[:last], False), (text[last:], True)]


def respelled(text, names):
    """The text with each name between backquotes in today's spelling."""
    def one(span):
        if span[0] in WORDS_OF_THE_TEXT or ' unless ' in span[0]:
            return span[0]
        return TOKEN.sub(lambda word: names.get(word[0], word[0]) if OLDER.search(word[0]) else word[0], span[0])

    return SPAN.sub(one, text)


def main(arguments):
    files = tracked()
    modules, words = names_of_crates(files)
    if arguments == ['respell']:
        names = {old: re.sub('(?<=[a-z0-9])(?=[A-Z])', '_', old.replace('-', '_')).lower() for old in BY_PORT} | table()
        for path in DOCUMENTS:
            new = ''.join(respelled(text, names) if today else text for text, today in parts(path))
            if new != text_of(path):
                with open(os.path.join(TOP, path), 'w', encoding='utf-8') as file:
                    file.write(new)
    missing = 0
    for path in DOCUMENTS:
        for text, today in parts(path):
            for span in SPAN.finditer(FENCED.sub('', text)) if today else ():
                gone = [f'{module}.{name}' for module, name in QUALIFIED.findall(span[1])
                        if module in modules and name not in modules[module] and name not in ('antt', 'md')]
                gone += [word for word in TOKEN.findall(span[1])
                         if NAME.fullmatch(word) and word not in words | OTHERS and not word.startswith('rattle-kit-')]
                for name in gone:
                    print(f'{path}: {name}, in `{" ".join(span[1].split())}`')
                    missing += 1
    print(f'names_in_documents: {missing or "no"} name{"s" if missing > 1 else ""} missing')
    return 1 if missing else 0


if __name__ == '__main__':
    sys.exit(main(sys.argv[1:]))
