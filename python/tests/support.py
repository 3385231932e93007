"""What the tests of the package and the command share: the files they are run on, the command run as a process, and an
earlier library.
"""
import glob
import os
import resource
import subprocess
import sys
import tempfile
from unittest import mock

TOP = os.path.dirname(os.path.dirname(os.path.dirname(os.path.abspath(__file__))))
sys.path[:0] = [os.path.join(TOP, 'python'), os.path.join(TOP, 'tests')]

from account_batch import vectors  # noqa: E402

from serpentgleam import library  # noqa: E402
from serpentgleam.faults import trailer_faults  # noqa: E402
from serpentgleam.layout import account_of  # noqa: E402
from serpentgleam.text import file_from_text  # noqa: E402

COMMAND = [sys.executable, os.path.join(TOP, 'python', 'bin', 'serpentgleam')]
EXAMPLES = sorted(glob.glob(os.path.join(TOP, 'examples', '*.account')))
DOCUMENT = os.path.join(TOP, 'examples', 'document.account')
WRONG_SIDE = os.path.join(TOP, 'examples', 'wrong_side.account')
BEFORE_THE_DAY = os.path.join(TOP, 'examples', 'before_the_day.account')
AFTER_THE_DAY = os.path.join(TOP, 'examples', 'after_the_day.account')
WHOLE_REAIS = os.path.join(TOP, 'examples', 'whole_reais.account')
INSTALMENTS = os.path.join(TOP, 'examples', 'instalments.account')
BLOCKED = os.path.join(TOP, 'examples', 'blocked.account')
LOAD = os.path.join(TOP, 'examples', 'load.account')
SERIES_TEXT = 'series call PV=3000 fa=1.2 fb=0.8 f3=0.05 M=5\n'
ROOM = 4096  # bytes on a disk that is full after them


def bytes_of(*path):
    """What a file has, by its path or by its parts from the top of the repository."""
    with open(os.path.join(TOP, *map(os.fsdecode, path)), 'rb') as source:
        return source.read()


VECTORS = vectors()
LAID_OUT = [(data, answer) for data, answer in VECTORS if not trailer_faults(data)]


def command(*words, data=b'', **options):
    """Exit status, standard output and standard error of the command."""
    run = subprocess.run([*COMMAND, *words], input=data, stdout=options.pop('stdout', subprocess.PIPE),
                         stderr=subprocess.PIPE, timeout=120, check=False, **options)
    return run.returncode, run.stdout, run.stderr.decode()


def little_room():
    """In a process that is to be started: its files take so many bytes, then a short write and an error."""
    resource.setrlimit(resource.RLIMIT_FSIZE, (ROOM, ROOM))


def folder(test):
    """A folder that is there while a test runs."""
    made = tempfile.TemporaryDirectory()
    test.addCleanup(made.cleanup)
    return made.name


def written(path, data):
    """The path, after the bytes are written there."""
    with open(path, 'wb') as file:
        file.write(data)
    return path


def file_with(text, series=SERIES_TEXT):
    """The file of a text that begins with one call series."""
    return file_from_text((series + text).encode())


def row_with(text):
    """The first position row of such a file."""
    return account_of(file_with(text)).positions[0]


def without_positions():
    """Accounts without positions: of one series and of 32, each without a cover sheet and with one that has rows."""
    return [cover + file_from_text((SERIES_TEXT * count).encode())
            for count in (1, 32) for cover in (b'', bytes_of(DOCUMENT)[:-12])]


def whole_reais(centavos):
    """An amount rounded up to a multiple of 100 centavos."""
    return -(-centavos // 100) * 100


def long_account():
    """An account whose answer has more than 4,096 bytes, which is what a pipe takes in one piece."""
    return file_with(''.join(f'{"held" if row % 2 else "written"} Q={row + 1} PE={3100 + row} european\n'
                             for row in range(256)))


class Earlier:
    """The shared object of an earlier library, which does not have some calls."""

    def __init__(self, shared, missing):
        self.shared, self.missing = shared, missing

    def __getitem__(self, name):
        if name.removeprefix('serpentgleam_') in self.missing:
            raise AttributeError(f'undefined symbol: {name}')
        return self.shared[name]


def earlier_library(test, *missing):
    """While a test runs, the library is one that does not have these calls."""
    for loaded in (library.calls, library.factors_call, library.day_call, library.instalment_calls,
                   library.take_apart_call, library.load_call):
        loaded.cache_clear()
        test.addCleanup(loaded.cache_clear)
    patched = mock.patch.object(library, 'load', return_value=Earlier(library.load(), missing))
    patched.start()
    test.addCleanup(patched.stop)
