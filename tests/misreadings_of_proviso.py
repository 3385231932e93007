#!/usr/bin/env python3
"""Puts misreadings of the proviso of document 02, request 11, into copies of the reference one by one, and counts what notices.

The table stands in misread_proviso.py; its form is told in misreadings.py. A misreading of the proviso changes no answer,
but for which accounts the brute force tries paths; a test of the reference on long expiries notices where it fails.

Needs cargo. Prints a table in markdown, with a summary. Exit status 1 where a misreading is noticed by no test.
"""
import os
import re
import shutil
import subprocess
import sys
import tempfile

import misread_proviso
from misreadings import changed, write
from top import path

TESTS = ['long_expiries', 'long_expiry_paths']
RESULT = re.compile(r'^test result: .* (\d+) failed', re.MULTILINE)


def count_that_notice(changes):
    """How many tests on long expiries fail in a copy of the whole reference."""
    with tempfile.TemporaryDirectory() as folder:
        copy = os.path.join(folder, 'reference')
        shutil.copytree(path('reference'), copy)
        texts = {}
        for name in {'src/' + file for file, _, _ in changes}:
            with open(os.path.join(copy, name)) as file:
                texts[name] = file.read()
        write(changed(texts, changes), copy)
        chosen = [word for test in TESTS for word in ('--test', test)]
        run = subprocess.run(['cargo', 'test', '--release', '--quiet', '--no-fail-fast', *chosen,
                              '--target-dir', os.path.join(folder, 'target')], cwd=copy, capture_output=True, text=True)
    failed = RESULT.findall(run.stdout)
    if len(failed) != len(TESTS):
        raise SystemExit(run.stderr)
    return sum(map(int, failed))


def main():
    if count_that_notice([]) != 0:
        raise SystemExit('of the reference itself a test on long expiries fails')
    counts = []
    print('| Name | What is misread | Tests that notice |\n|---|---|---|')
    for name, misread, changes in misread_proviso.TABLE:
        counts.append(count_that_notice(changes))
        print(f'| {name} | {misread} | {counts[-1]} |', flush=True)
    print(f'\n{len(counts)} misreadings, {counts.count(0)} noticed by no test, the fewest noticed by {min(counts)}')
    return 1 if 0 in counts else 0


if __name__ == '__main__':
    sys.exit(main())
