#!/usr/bin/env python3
"""How many accounts a second the module, margin_batch and the command take: python3 python/measure.py

Each is run several times and the best is kept. The accounts are small ones: the document's example of three rows, and
those of the vectors that have at most 16 position rows, accepted or refused. Needs target/bin/margin_batch
(library/programs.sh) and the shared object (library/shared_object.sh). Prints the table of docs/PERFORMANCE.md.
"""
import os
import subprocess
import sys
import tempfile
import time

TOP = os.path.dirname(os.path.dirname(os.path.abspath(__file__)))
sys.path[:0] = [os.path.join(TOP, 'python'), os.path.join(TOP, 'tests')]

from account_batch import framed, vectors  # noqa: E402

import serpentgleam  # noqa: E402
from serpentgleam.faults import trailer_faults  # noqa: E402
from serpentgleam.layout import trailer_of  # noqa: E402

ROUNDS = 5
ACCOUNTS = 20_000
MOST_ROWS = 16
COMMAND = [sys.executable, os.path.join(TOP, 'python', 'bin', 'serpentgleam'), 'margin', '-q', '--from', '-']
BATCH = [os.path.join(TOP, 'target', 'bin', 'margin_batch')]


def best_seconds(work):
    """The least time of the rounds."""
    times = []
    for _ in range(ROUNDS):
        start = time.perf_counter()
        work()
        times.append(time.perf_counter() - start)
    return min(times)


def example():
    with open(os.path.join(TOP, 'examples', 'document.account'), 'rb') as file:
        return [file.read()] * ACCOUNTS


def small_vectors():
    """So many of the vectors that have few position rows, again and again."""
    small = [data for data, _ in vectors()
             if not trailer_faults(data) and trailer_of(data)['position count'] <= MOST_ROWS]
    return (small * (ACCOUNTS // len(small) + 1))[:ACCOUNTS]


def run_program(command, data):
    """The output goes where nothing is kept of it. Refused files are answers too."""
    run = subprocess.run(command, input=data, stdout=subprocess.DEVNULL, check=False)
    if run.returncode not in (0, 1):
        raise SystemExit(f'{command}: status {run.returncode}')


def in_memory(files):
    """Ways to margin accounts that are in memory, each with its work on all of them."""
    together = framed(files)
    return (
        ('module, `margin_or_refusal(data)`', lambda: [serpentgleam.margin_or_refusal(data) for data in files]),
        ('`margin_batch`, one run', lambda: run_program(BATCH, together)),
    )


def from_files(files, folder):
    """The command on files, in each form of output, each with its work on all of them."""
    names = []
    for number, data in enumerate(files):
        names.append(os.path.join(folder, f'{number}.account'))
        with open(names[-1], 'wb') as file:
            file.write(data)
    listed = '\n'.join(names).encode()
    return tuple((f'command, `serpentgleam margin{form}`, one run', lambda form=form: run_program(
        COMMAND + form.split(), listed)) for form in ('', ' --json', ' --csv'))


def main():
    print('| way | document\'s example | vectors of few rows |\n|---|---|---|')
    kinds = [example(), small_vectors()]
    with tempfile.TemporaryDirectory() as first, tempfile.TemporaryDirectory() as second:
        ways = [in_memory(files) + from_files(files, folder) for files, folder in zip(kinds, (first, second))]
        for (name, one), (_, other) in zip(*ways):
            figures = [f'{round(ACCOUNTS / best_seconds(work), -3):,.0f}' for work in (one, other)]
            print(f'| {name} | {" | ".join(figures)} |', flush=True)


if __name__ == '__main__':
    main()
