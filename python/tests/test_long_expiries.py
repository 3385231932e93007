"""The accounts of the folder long_expiries: both forms are the same file, and their margins and amounts so far."""
import glob
import os
import unittest

from support import TOP, bytes_of, command

import serpentgleam
from serpentgleam.text import file_from_text, text_from_file

FOLDER = os.path.join(TOP, 'long_expiries')
LINES = {
    'excepted_put': (['left 0 1 0', 'premium 0', 'total 0'], ['pairs 0 0']),
    'two_years': (['pair 0 1 4 4000', 'left 0 6 47700', 'left 2 10 12200', 'left 3 1 8800', 'left 4 1 0', 'left 5 2 15900',
                   'premium 0', 'total 88600'], ['pairs 0 116400', 'pairs 1 88600']),
}


def account(name):
    return os.path.join(FOLDER, f'{name}.account')


class LongExpiries(unittest.TestCase):
    def lines(self, *words):
        """What the command prints of one file, without its name."""
        status, output, _ = command(*words)
        self.assertEqual(status, 0)
        return [line.split('\t')[1] for line in output.decode().splitlines()]

    def test_both_forms(self):
        self.assertEqual(sorted(glob.glob(account('*'))), [account(name) for name in LINES])
        for name in LINES:
            data = bytes_of('long_expiries', f'{name}.account')
            self.assertEqual(file_from_text(bytes_of('long_expiries', f'{name}.txt')), data)
            self.assertEqual(file_from_text(text_from_file(data)), data)

    def test_margins(self):
        for name, (lines, so_far) in LINES.items():
            with self.subTest(name):
                self.assertEqual(self.lines('margin', account(name)), lines)
                self.assertEqual(self.lines('instalments', account(name), '1'), so_far)

    def test_totals(self):
        totals = [serpentgleam.margin(bytes_of('long_expiries', f'{name}.account')).total for name in LINES]
        self.assertEqual(totals, [0, 88_600])


if __name__ == '__main__':
    unittest.main()
