#!/usr/bin/env python3
"""Compares the proved programs with the reference implementation on the reference's vectors.

For each file: the reading (accepted, or refusal and row), and the amounts of up to four rows and of one that is not
there. Needs cargo, and target/bin/position_amounts (library/programs.sh). Prints how many of each it compared, and every
difference; exit status 1 where there is one.
"""
import random
import subprocess
import sys

from top import TOP, path

from account_batch import amounts_of, vector_bytes, vectors

CARGO = path('target', 'cargo')


def lines_of(program):
    """What a proved program prints for the vectors."""
    run = subprocess.run([path('target', 'bin', program)], input=vector_bytes('stdin'), capture_output=True, check=True)
    return run.stdout.decode().splitlines()


def build_reference():
    command = ['cargo', 'build', '--release', '--quiet', '--bin', 'one_position', '--target-dir', CARGO]
    subprocess.run(command, cwd=TOP, check=True)
    return f'{CARGO}/release/one_position'


def same_reading(answer, amounts):
    """An accepted file's rows end in refusal 13, any other file has its own refusal alone."""
    first = answer.splitlines()[0]
    return [first] == amounts if first.startswith('refused') else amounts[-1] == 'refused 13 0'


def told(amounts, row):
    """What position_amounts says of a row: its amount, or minus the refusal's number."""
    words = amounts[min(row, len(amounts) - 1)].split()
    return words[2] if words[0] == 'amount' else '-' + words[1]


def rows_to_ask(chance, amounts):
    count = len(amounts)
    return sorted(chance.sample(range(count), min(4, count)) + [count])


def main():
    one_position, chance, differences, compared = build_reference(), random.Random(1), 0, 0
    answers = zip(vectors(), amounts_of(lines_of('position_amounts')), strict=True)
    for number, ((file, answer), amounts) in enumerate(answers):
        if not same_reading(answer, amounts):
            differences += 1
            print(f'file {number}: reference {answer.splitlines()[0]}, program {amounts[-1]}')
        for row in rows_to_ask(chance, amounts):
            run = subprocess.run([one_position, str(row)], input=file, capture_output=True, check=True)
            expected, found = run.stdout.decode().strip(), told(amounts, row)
            compared += 1
            if found != expected:
                differences += 1
                print(f'file {number}, row {row}: reference {expected}, program {found}')
    print(f'{number + 1} files, {compared} amounts, {differences} differences')
    return 1 if differences else 0


if __name__ == '__main__':
    sys.exit(main())
