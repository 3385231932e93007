#!/usr/bin/env python3
"""Margins a folder of account files on a Dask cluster: python3 examples/fee_run_dask.py FOLDER > answers.jsonl

Prints for each file that ends in .account, in the order of their names, what `serpentgleam margin --json` prints; the
summary, the messages and the status are the same too.

  --scheduler ADDRESS    a running cluster, such as tcp://machine:8786; without it a cluster on this machine
  --workers NUMBER       of the cluster on this machine, 2 where it is not said
  -o, --output OUTPUT    into this file, which appears whole when all is done or not at all

Needs Dask's distributed (Debian: apt-get install python3-distributed) here and on every worker, and on every worker
the package serpentgleam with its shared object: installed there, or named by PYTHONPATH and SERPENTGLEAM_LIBRARY_SO
where the worker is started. The files are read here and sent, so that the workers need not see the folder.
"""
import argparse
import collections
import os
import sys

PACKAGE = os.path.join(os.path.dirname(os.path.dirname(os.path.abspath(__file__))), 'python')
if os.path.isdir(PACKAGE):  # in the repository; the processes that are started here look there too
    sys.path.insert(0, PACKAGE)
    os.environ['PYTHONPATH'] = os.pathsep.join(filter(None, [PACKAGE, os.environ.get('PYTHONPATH')]))

import serpentgleam  # noqa: E402
from serpentgleam.inputs import Unread, read_account_file  # noqa: E402
from serpentgleam.output import Unwritten, output_to, say  # noqa: E402
from serpentgleam.progress import Tally  # noqa: E402
from serpentgleam.reports import JsonLines  # noqa: E402

MOST_FILES = 2000      # that are sent together
MOST_BYTES = 500_000   # of the files that are sent together, unless one alone has more
SENT_AHEAD = 4         # parts for each worker


def read_words():
    words = argparse.ArgumentParser(description=__doc__, usage=argparse.SUPPRESS,
                                    formatter_class=argparse.RawDescriptionHelpFormatter)
    words.add_argument('folder', metavar='FOLDER', help=argparse.SUPPRESS)
    words.add_argument('--scheduler', help=argparse.SUPPRESS)
    words.add_argument('--workers', type=int, default=2, help=argparse.SUPPRESS)
    words.add_argument('-o', '--output', help=argparse.SUPPRESS)
    return words.parse_args()


def account_names(folder):
    """The names of the folder's account files, in order."""
    return sorted((entry.path for entry in os.scandir(folder) if entry.name.endswith('.account')), key=os.fsencode)


def parts(names, tally):
    """The files in parts that are sent together, each file as its name and its bytes."""
    part, size = [], 0
    for name in names:
        try:
            data = read_account_file(name)
        except Unread as error:
            tally.add_unread(str(error))
            continue
        if part and (len(part) == MOST_FILES or size + len(data) > MOST_BYTES):
            yield part
            part, size = [], 0
        part.append((name, data))
        size += len(data)
    if part:
        yield part


def margin_part(part):
    """On a worker: for each file of a part its answer as a line of JSON, and whether it is accepted."""
    form, answers = JsonLines(), []
    for name, data in part:
        answer = serpentgleam.margin_or_refusal(data)
        answers.append((form.answer(name, answer), isinstance(answer, serpentgleam.Margin)))
    return answers


def version():
    """On a worker: the version of the package, after the library is found."""
    serpentgleam.margin_or_refusal(b'')
    return serpentgleam.__version__


def answers_in_order(client, sent):
    """The answers of the parts in their order; a few parts are on their way at a time."""
    ahead = SENT_AHEAD * max(1, len(client.nthreads()))
    on_their_way = collections.deque()
    for part in sent:
        on_their_way.append(client.submit(margin_part, part, pure=False))
        if len(on_their_way) > ahead:
            yield from on_their_way.popleft().result()
    while on_their_way:
        yield from on_their_way.popleft().result()


def fee_run(client, words):
    """Writes the answers; gives the exit status."""
    found = set(client.run(version).values())
    if found != {serpentgleam.__version__}:
        say(f'the workers have version {", ".join(sorted(found))}, and here it is {serpentgleam.__version__}' if found
            else 'the cluster has no workers')
        return 2
    tally = Tally('accepted', 'refused', quiet=False)
    with output_to(words.output, words.output) as output:
        for line, accepted in answers_in_order(client, parts(account_names(words.folder), tally)):
            output.write(line)
            tally.add(accepted)
    tally.summary()
    return 2 if tally.unread else 1 if tally.faulty else 0


def main():
    words = read_words()
    try:
        from distributed import Client, LocalCluster
    except ImportError:
        say("this needs Dask's distributed; on Debian: apt-get install python3-distributed")
        return 2
    try:
        if words.scheduler:
            with Client(words.scheduler) as client:
                return fee_run(client, words)
        with LocalCluster(words.workers, threads_per_worker=1, dashboard_address=None) as cluster, \
                Client(cluster) as client:
            return fee_run(client, words)
    except Unwritten as error:
        say(str(error))
    except Exception as error:  # of the cluster or a worker, where it can be of any kind
        say(f'{type(error).__name__}: {error}')
    return 2


if __name__ == '__main__':
    sys.exit(main())
