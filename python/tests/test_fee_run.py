"""examples/fee_run_dask.py on a local cluster of two workers gives what the command gives. Needs Dask's distributed."""
import os
import subprocess
import sys
import unittest

from support import TOP, VECTORS, command, folder, written

SCRIPT = os.path.join(TOP, 'examples', 'fee_run_dask.py')


def python_with_distributed():
    """A Python that has the package: this one or that of the operating system; or None."""
    for python in (sys.executable, '/usr/bin/python3'):
        if os.path.exists(python) and subprocess.run([python, '-c', 'import distributed'], stderr=subprocess.DEVNULL,
                                                     check=False).returncode == 0:
            return python
    return None


def run(python, *words):
    """Exit status, standard output and standard error of the script."""
    done = subprocess.run([python, SCRIPT, *words], capture_output=True, timeout=300, check=False)
    return done.returncode, done.stdout, done.stderr.decode()


class FeeRun(unittest.TestCase):
    def test_two_workers_give_what_the_command_gives(self):
        python = python_with_distributed()
        if not python:
            self.skipTest('python3-distributed is not installed')
        place = os.fsencode(folder(self))
        for number, (data, _) in enumerate(VECTORS[:-1]):
            written(os.path.join(place, b'%04d.account' % number), data)
        written(os.path.join(place, b'9999\xe7.account'), VECTORS[-1][0])
        names = sorted(os.path.join(place, name) for name in os.listdir(place))
        expected = command('margin', '--json', *names)
        self.assertEqual((expected[0], expected[1].count(b'\n')), (1, len(VECTORS)))
        self.assertEqual(run(python, '--workers', '2', place), expected)

    def test_messages(self):
        self.assertEqual(run(sys.executable)[0], 2)
        python = python_with_distributed() or sys.executable
        status, output, errors = run(python, os.path.join(folder(self), 'none'))
        self.assertEqual((status, output), (2, b''))
        self.assertRegex(errors, r'\Aserpentgleam: [^\n]*(No such file or directory|python3-distributed)[^\n]*\n\Z')


if __name__ == '__main__':
    unittest.main()
