"""The proved programs tell of an answer that cannot be written, and none stands in the place of a lost one. An account
without positions has an answer like any other.
"""
import os
import resource
import signal
import subprocess
import unittest

from support import DOCUMENT, TOP, bytes_of, folder, without_positions

from account_batch import framed

LOST = b'margin_batch: an answer could not be written; it and those of all later accounts are missing\n'
ROOM = 100  # bytes on a disk that is full after them, less than two answers


def program(name, data, **options):
    """Standard output and standard error of a proved program."""
    run = subprocess.run([os.path.join(TOP, 'target', 'bin', name)], input=data, check=True, timeout=60,
                         **{'stdout': subprocess.PIPE, 'stderr': subprocess.PIPE, **options})
    return run.stdout, run.stderr


def little_room():
    """In a process that is to be started: its files take so many bytes, then a short write and an error."""
    signal.signal(signal.SIGXFSZ, signal.SIG_IGN)
    resource.setrlimit(resource.RLIMIT_FSIZE, (ROOM, ROOM))


class UnwrittenAnswers(unittest.TestCase):
    def setUp(self):
        self.accounts = framed([bytes_of(DOCUMENT)] * 20)

    def test_no_room_at_all(self):
        for name, data, sentence in (('margin', bytes_of(DOCUMENT), b'margin: the answer could not be written\n'),
                                     ('margin_batch', self.accounts, LOST)):
            with self.subTest(name), open('/dev/full', 'wb') as full:
                self.assertEqual(program(name, data, stdout=full)[1], sentence)

    def test_what_is_written_is_the_beginning(self):
        whole, errors = program('margin_batch', self.accounts)
        self.assertEqual(errors, b'')
        path = os.path.join(folder(self), 'answers')
        with open(path, 'wb') as out:
            self.assertEqual(program('margin_batch', self.accounts, stdout=out, preexec_fn=little_room)[1], LOST)
        self.assertEqual(bytes_of(path), whole[:ROOM])

    def test_no_room_for_a_moment(self):
        data = framed([bytes_of(DOCUMENT)] * 5000)
        whole, _ = program('margin_batch', data)
        end, pipe = os.pipe()
        os.set_blocking(pipe, False)  # a write into the full pipe fails, until the pipe is read
        with os.fdopen(pipe, 'wb') as full:
            self.assertEqual(program('margin_batch', data, stdout=full)[1], LOST)
        with os.fdopen(end, 'rb') as reader:
            answers = reader.read()
        self.assertTrue(whole.startswith(answers) and len(answers) < len(whole))

    def test_a_pipe_that_nobody_reads(self):
        end, pipe = os.pipe()
        os.close(end)
        with os.fdopen(pipe, 'wb') as closed:
            ignored = {'preexec_fn': lambda: signal.signal(signal.SIGPIPE, signal.SIG_IGN), 'restore_signals': False}
            self.assertEqual(program('margin_batch', self.accounts, stdout=closed, **ignored)[1], LOST)


class NoPositions(unittest.TestCase):
    def test_one_account(self):
        for data in without_positions():
            self.assertEqual(program('margin', data), (b'premium 0\ntotal 0\n', b''))

    def test_among_others(self):
        empty, document = b'premium 0\ntotal 0\n\n', program('margin', bytes_of(DOCUMENT))[0] + b'\n'
        accounts = [account for data in without_positions() for account in (data, bytes_of(DOCUMENT))]
        self.assertEqual(program('margin_batch', framed(accounts)), ((empty + document) * 4, b''))


if __name__ == '__main__':
    unittest.main()
