#!/usr/bin/env python3
"""Puts misreadings of documents 01 and 02 into copies of the reference one by one, and counts what notices.

The tables stand in the files misread_*.py beside this one. A misreading there is a name, what is misread, and a list of
changes: a file below reference/src, a text that stands in it exactly once, and the text put in its place. Each changed
copy margins the reference's vectors (the accounts in crates/margin_batch/stdin); an account notices where its output is
not that of crates/margin_batch/stdout. With a misreading of the amount for one position it prints those of the files in
crates/position_amounts/stdin; a file notices where its amounts are not those of crates/position_amounts/stdout. With a
misreading of the day it brings the files of crates/day_batch/stdin up to date; a case notices where its answer or the
bytes after it are not those of crates/day_batch/stdout. With a misreading of instalments or of taking pairs apart it makes
the calls in tests/instalments/cases; a case notices where an answer or a list after it is not that of
tests/instalments/answers.
With a misreading of the factors it prints the list of all factors; a line notices where it is not that of
crates/factors_list/stdout. With a misreading of the load it writes the list of loads; a case notices where its answer or
the buffer after it is not that of crates/load_list/stdout.

Needs cargo. Prints six tables in markdown, each with a summary. Exit status 1 where a misreading is noticed by no
account, by no file, by no case, or by no line.
"""
import os
import subprocess
import sys
import tempfile
from collections import namedtuple

import misread_amounts
import misread_apart
import misread_blocked
import misread_days
import misread_factors
import misread_file
import misread_instalments
import misread_knocked_out
import misread_limiters
import misread_load
import misread_no_positions
import misread_order
import misread_pairs
import misread_positions
import misread_reais
import misread_spreads
from top import path

from account_batch import amounts_of, answers_of, files_of, framed, vector_bytes

# What notices, a program of the reference, its input, its output as a list of what can notice, and the misreadings.
Noticing = namedtuple('Noticing', 'what program given parts_of expected tables')

MODULES = ['account', 'day', 'draft', 'factors', 'factors_list', 'instalment_cases', 'instalments', 'lines', 'load',
           'load_list', 'output', 'pairing', 'position', 'position_row', 'reader', 'spread']
TABLES = [module.TABLE for module in (
    misread_positions, misread_spreads, misread_limiters, misread_pairs, misread_file, misread_no_positions,
    misread_knocked_out, misread_reais, misread_order, misread_blocked)]
DAY_BYTES = 32


def by_accounts():
    return Noticing('account', 'margin_reference_batch', vector_bytes('stdin'), answers_of, vector_bytes('stdout'), TABLES)


def by_files_of_amounts():
    """The last file is cut off, which the program of the reference does not take."""
    given = framed(files_of(vector_bytes('stdin', 'position_amounts'))[:-1])
    expected = vector_bytes('stdout', 'position_amounts')

    def amounts(output):
        return list(amounts_of(output.decode().splitlines()))

    return Noticing('file', 'amounts_reference_batch', given, amounts, expected,
                    [misread_amounts.TABLE, misread_blocked.AMOUNTS])


def by_cases_of_days():
    given, expected = vector_bytes('stdin', 'day_batch'), vector_bytes('stdout', 'day_batch')

    def answers(output):
        """Of each case its line, and as many bytes after it as the file has."""
        found, at = [], 0
        for case in files_of(given):
            end = output.index(b'\n', at) + 1 + len(case) - DAY_BYTES + 1
            found.append(output[at:end])
            at = end
        return found

    return Noticing('case', 'day_reference_batch', given, answers, expected,
                    [misread_days.TABLE, misread_blocked.DAYS])


def by_cases_of_instalments():
    def stored(name):
        with open(path('tests', 'instalments', name), 'rb') as file:
            return file.read()

    given, expected = stored('cases'), stored('answers')
    return Noticing('case', 'instalments_reference_batch', given, answers_of, expected,
                    [misread_instalments.TABLE, misread_apart.TABLE, misread_blocked.INSTALMENTS])


def by_lines_of_factors():
    expected = vector_bytes('stdout', 'factors_list')
    return Noticing('line', 'factors_list', b'', bytes.splitlines, expected, [misread_factors.TABLE])


def by_cases_of_loads():
    def cases(output):
        """Of each case its line, and as many bytes after it as its third number says."""
        found, at = [], 0
        while at < len(output):
            start = output.index(b'\n', at) + 1
            end = start + int(output[at:start].split()[2]) + 1
            found.append(output[at:end])
            at = end
        return found

    return Noticing('case', 'load_list', b'', cases, vector_bytes('stdout', 'load_list'), [misread_load.TABLE])


def sources(program):
    """What the program needs of the reference: text by name."""
    texts = {'src/lib.rs': ''.join(f'pub mod {module};\n' for module in MODULES)}
    for name in ['Cargo.toml', f'src/bin/{program}.rs'] + [f'src/{module}.rs' for module in MODULES]:
        with open(path('reference', name)) as file:
            texts[name] = file.read()
    return texts


def changed(texts, changes):
    texts = dict(texts)
    for file, old, new in changes:
        name = 'src/' + file
        if texts[name].count(old) != 1:
            raise SystemExit(f'{file}: not exactly once:\n{old}')
        texts[name] = texts[name].replace(old, new)
    return texts


def write(texts, folder):
    for name, text in texts.items():
        place = os.path.join(folder, name)
        os.makedirs(os.path.dirname(place), exist_ok=True)
        with open(place, 'w') as file:
            file.write(text)


def built(folder, program):
    """The program of the copy in this folder."""
    target = os.path.join(folder, 'target')
    command = ['cargo', 'build', '--release', '--quiet', '--bin', program, '--target-dir', target]
    build = subprocess.run(command, cwd=folder, capture_output=True, text=True)
    if build.returncode != 0:
        raise SystemExit(build.stderr)
    return os.path.join(target, 'release', program)


def count_that_notice(noticing, texts, changes):
    """How many accounts, cases or lines have another output than expected."""
    with tempfile.TemporaryDirectory() as folder:
        write(changed(texts, changes), folder)
        program = built(folder, noticing.program)
        run = subprocess.run([program], input=noticing.given, capture_output=True, check=True, timeout=300)
    expected, found = noticing.parts_of(noticing.expected), noticing.parts_of(run.stdout)
    return sum(one != other for one, other in zip(expected, found, strict=True))


def print_table(noticing):
    """Prints the misreadings and how many notice each; says whether each is noticed."""
    what, texts, counts = noticing.what, sources(noticing.program), []
    if count_that_notice(noticing, texts, []) != 0:
        raise SystemExit(f'{noticing.program} of the reference itself does not give what is expected')
    print(f'| Name | What is misread | {what.capitalize()}s that notice |\n|---|---|---|')
    for name, misread, changes in [misreading for table in noticing.tables for misreading in table]:
        counts.append(count_that_notice(noticing, texts, changes))
        print(f'| {name} | {misread} | {counts[-1]} |', flush=True)
    print(f'\n{len(counts)} misreadings, {counts.count(0)} noticed by no {what}, the fewest noticed by {min(counts)}')
    return 0 not in counts


def main():
    noticed = []
    for noticing in (by_accounts(), by_files_of_amounts(), by_cases_of_days(), by_cases_of_instalments(),
                     by_lines_of_factors(), by_cases_of_loads()):
        if noticed:
            print()
        noticed.append(print_table(noticing))
    return 0 if all(noticed) else 1


if __name__ == '__main__':
    sys.exit(main())
