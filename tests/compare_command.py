#!/usr/bin/env python3
"""Compares the command `serpentgleam margin` with the program margin_batch on 20,000 account files.

The files are the vectors, accepted ones with other quantities, numbers blocked, strikes and premiums and with some
knock-outs marked as already knocked out, and damaged ones. What the command prints as text, as JSON and as CSV is
parsed back, and each answer is compared with the program's. Needs target/bin/margin_batch (library/programs.sh) and the
shared object (library/shared_object.sh). Prints how many it compared, and every difference; exit status 1 where there is one.
"""
import csv
import io
import json
import os
import random
import subprocess
import sys
import tempfile

from top import path

from account_batch import answers_of, framed, vectors
from serpentgleam import REASONS
from serpentgleam.layout import POSITION, account_of, file_of
from serpentgleam.reports import ANSWER_FIELDS

FILES = 20_000
BATCH = path('target', 'bin', 'margin_batch')
COMMAND = [sys.executable, path('python', 'bin', 'serpentgleam'), 'margin', '-q', '-0', '--from', '-']
LATIN_1 = b'\xe7\xe3'
ODD_NAMES = (b'a b', b'a,b', b'"a"', b"'", b'a;b=', b'a' + LATIN_1, 'ação'.encode(), b'=1', b'a\tb', b'\\n')
SMALL = (0, 1, 2, 3, 4, 8, 16, 20)  # bytes that are kinds, flags or counts
KNOCKED_OUT = next(field for field in POSITION.fields if field.name == 'knocked-out')
ORDER = {'pair': ('written', 'held', 'contracts', 'amount'), 'left': ('row', 'contracts', 'amount'),
         'premium': ('amount',), 'total': ('amount',), 'refused': ('number', 'row')}


def marked(chance, row):
    """A row, a knock-out at times marked as already knocked out."""
    return {**row, KNOCKED_OUT.name: KNOCKED_OUT.bits} if row['kind'] in (3, 4) and chance.random() < 0.2 else row


def contracts(chance, row):
    """Q, and how many are blocked: of a held row none, one, all but one or all."""
    q = chance.randint(1, 50)
    return {'Q': q, 'blocked': 0 if row['side'] else chance.choice((0, 0, 1, q - 1, q))}


def changed(chance, account):
    """The file of an account with other contracts, strikes and premiums; few strikes, so that rows pair and tie."""
    least, most = chance.choice(((3000, 3005), (2900, 3300), (1, 10_000_000)))
    rows = [dict(marked(chance, row), **contracts(chance, row), PE=chance.randint(least, most),
                 premium=0 if row['side'] else chance.randint(0, 40)) for row in account.positions]
    chance.shuffle(rows)
    return file_of(account._replace(positions=rows))


def damaged(chance, data):
    """The file with a few of its bytes changed, its end cut off, or bytes before it."""
    if chance.random() < 0.1:
        return data[:chance.randrange(len(data) + 1)] if chance.random() < 0.5 else chance.randbytes(9) + data
    broken = bytearray(data)
    for _ in range(chance.randint(1, 3)):
        broken[-1 - chance.randrange(min(len(data), 400))] = chance.choice((*SMALL, chance.randrange(256)))
    return bytes(broken)


def account_files():
    """The bytes of the files, from a fixed seed."""
    chance = random.Random(20030814)
    known = vectors()
    small = [data for data, answer in known if answer[:7] != 'refused' and len(data) < 20 * POSITION.size]
    accounts = [account_of(data) for data in small]
    files = [data for data, _ in known]
    while len(files) < FILES:
        files.append(changed(chance, chance.choice(accounts)))
        files.append(damaged(chance, chance.choice(small)))
    return files[:FILES]


def write_files(folder, files):
    """The paths of the files, after they are written; some have odd names."""
    paths = []
    for number, data in enumerate(files):
        odd = ODD_NAMES[number // 50 % len(ODD_NAMES)] if number % 50 == 0 else b''
        paths.append(os.path.join(os.fsencode(folder), b'%05d%s' % (number, odd)))
        with open(paths[-1], 'wb') as file:
            file.write(data)
    return paths


def line_of(record):
    """The line that the program prints, from the fields by their names."""
    reason = record.get('reason')
    if reason and reason != REASONS[int(record['number'])]:
        raise ValueError(f'another sentence for refusal {record["number"]}: {reason}')
    return ' '.join([record['kind'], *(str(record[field]) for field in ORDER[record['kind']])])


def lines_of_object(answer):
    """The lines of one JSON object's answer."""
    if 'refused' in answer:
        return [line_of({'kind': 'refused', **answer['refused']})]
    return [line_of(line) for line in answer['lines']] + [f'premium {answer["premium"]}', f'total {answer["total"]}']


def from_json(output):
    """Each file's name and line, for each line of its answer."""
    for text in output.decode().splitlines():
        answer = json.loads(text)
        name = bytes.fromhex(answer['file_hex']) if 'file_hex' in answer else answer['file'].encode()
        yield from ((name, line) for line in lines_of_object(answer))


def from_csv(output):
    """The same; fields that a line does not have are empty."""
    rows = csv.DictReader(io.StringIO(output.decode('utf-8', 'surrogateescape'), newline=''))
    if tuple(rows.fieldnames) != ANSWER_FIELDS:
        raise ValueError(f'other fields: {rows.fieldnames}')
    for row in rows:
        filled = {field for field in row if row[field] and field not in ('file', 'kind', 'reason')}
        if filled != set(ORDER[row['kind']]):
            raise ValueError(f'a {row["kind"]} line with {sorted(filled)}')
        yield row['file'].encode('utf-8', 'surrogateescape'), line_of(row)


def from_text(output):
    """The same of the text."""
    for line in output.split(b'\n')[:-1]:
        name, answer, *_ = line.split(b'\t')
        yield name.replace(b'\\t', b'\t').replace(b'\\\\', b'\\'), answer.decode()


FORMS = ((['--json'], from_json), (['--csv'], from_csv), ([], from_text))


def answers_by_file(lines):
    """The lines of each file's answer by its name, in the order of the output."""
    answers = {}
    for name, line in lines:
        answers.setdefault(name, []).append(line)
    return {name: '\n'.join(lines) for name, lines in answers.items()}


def main():
    files = account_files()
    batch = subprocess.run([BATCH], input=framed(files), capture_output=True, check=True)
    expected, differences = answers_of(batch.stdout), 0
    with tempfile.TemporaryDirectory() as folder:
        paths = write_files(folder, files)
        for options, parsed in FORMS:
            run = subprocess.run(COMMAND + options, input=b'\0'.join(paths), stdout=subprocess.PIPE, check=False)
            answers = answers_by_file(parsed(run.stdout))
            told = [(name, answer, answers.get(name)) for name, answer in zip(paths, expected, strict=True)]
            wrong = [one for one in told if one[1] != one[2]]
            differences += len(wrong) + (list(answers) != paths) + (run.returncode != 1)
            for name, answer, found in wrong[:5]:
                print(f'{options} {name}: margin_batch {answer!r}, the command {found!r}')
    accepted = sum(not answer.startswith('refused') for answer in expected)
    print(f'{len(expected)} files, {accepted} accepted, {sum(answer.count("pair") for answer in expected)} pairs, '
          f'as JSON, CSV and text: {differences} differences')
    return 1 if differences else 0


if __name__ == '__main__':
    sys.exit(main())
