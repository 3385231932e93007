"""Accounts without positions: no lines, premium 0 and total 0, in every form. Their trailer and series are checked."""
import ctypes
import json
import os
import unittest

from support import (DOCUMENT, SERIES_TEXT, bytes_of, command, file_with, folder, long_account, without_positions,
                     written)

import serpentgleam
from serpentgleam import Margin, Refusal, Refused, library, text
from serpentgleam.layout import Account, account_of, file_of

NOTHING = Margin((), (), 0, 0)
REASON = serpentgleam.REASONS[13]
COVER = b'expired on Friday\n'
SERIES = account_of(file_with('')).series
CONTENT = b'content before!!'


def with_trailer(*values):
    """An account of one series and no positions whose trailer says this: series, positions, distance, ending."""
    return file_of(Account(COVER, SERIES, []), values)


def with_series(*changes):
    """An account of two series and no positions, the second with other values."""
    return text.file_from_text((SERIES_TEXT + SERIES_TEXT.replace(*changes)).encode())


FAULTY = (
    (file_of(Account(b'', [], [])), 2, 0),
    (file_of(Account(COVER, [], [])), 2, 0),
    (with_trailer(0, 0, 12, 0), 2, 0),
    (with_trailer(0, 0, 36, 0), 2, 0),
    (with_trailer(33, 0, 12 + 24 * 33, 0), 2, 0),
    (with_trailer(1, 0, 36, 1), 2, 0),
    (with_trailer(1, 0, 36, 1 << 24), 2, 0),
    (with_trailer(1, 0, 37, 1), 2, 0),
    (with_trailer(1, 0, 0, 0), 4, 0),
    (with_trailer(1, 0, 35, 0), 4, 0),
    (with_trailer(1, 0, 37, 0), 4, 0),
    (with_trailer(1, 0, 36 + 32, 0), 4, 0),
    (with_trailer(1, 0, 2 ** 32 - 1, 0), 4, 0),
    (with_trailer(32, 0, 12 + 24 * 32, 0), 4, 0),  # longer than the file
    (file_with('')[1:], 4, 0),
    (with_series('PV=3000', 'PV=0'), 5, 1),
    (with_series('fb=0.8', 'fb=1.200001'), 5, 1),
    (with_series('M=5', 'M=1001'), 5, 1),
    (with_series('call', 'type=2'), 6, 1),
    (with_series('M=5', 'M=5 spare=000100'), 6, 1),
)


class Module(unittest.TestCase):
    def test_margin(self):
        for data in without_positions():
            self.assertEqual(serpentgleam.margin(data), NOTHING)
            self.assertEqual(serpentgleam.margin_or_refusal(data), NOTHING)

    def test_after_a_long_answer(self):
        serpentgleam.margin(long_account())
        self.assertEqual(serpentgleam.margin(file_with('')), NOTHING)

    def test_no_row_is_there(self):
        for data in without_positions():
            for row in (0, 1, 255, 256, 2 ** 64 - 1, 2 ** 64):
                with self.assertRaises(Refused) as raised:
                    serpentgleam.position_amount(data, row)
                self.assertEqual(raised.exception.refusal, Refusal(13, 0))

    def test_faulty(self):
        for data, number, row in FAULTY:
            self.assertEqual(serpentgleam.margin_or_refusal(data), Refusal(number, row))
            with self.assertRaises(Refused) as raised:
                serpentgleam.position_amount(data, 0)
            self.assertEqual(raised.exception.refusal, Refusal(number, row))


class Lists(unittest.TestCase):
    def margin(self, data, lines, room):
        """Refusal, row, lines and total that the library's call gives for this list."""
        result = library.calls().margin(data, len(data), lines, room)
        return tuple(getattr(result, name) for name, _ in library.Result._fields_)

    def test_no_list(self):
        for data in without_positions():
            self.assertEqual(self.margin(data, None, 0), (0, 0, 0, 0))
        self.assertEqual(self.margin(bytes_of(DOCUMENT), None, 0), (12, 0, 0, 0))

    def test_every_entry_keeps_its_content(self):
        size = library.LINE_NUMBERS * ctypes.sizeof(ctypes.c_uint64)
        cases = [(data, 0, 0) for data in without_positions()] + list(FAULTY)
        for data, number, row in cases:
            for room in (0, 1, 2, library.MOST_LINES):
                entries = (CONTENT * size * room)[:size * room]
                lent = ctypes.create_string_buffer(entries, size * room + 1)
                self.assertEqual(self.margin(data, lent, room), (number, row, 0, 0))
                self.assertEqual(lent.raw, entries + b'\0')


class Text(unittest.TestCase):
    def test_series_lines_alone(self):
        for count in (1, 2, 32):
            data, faults = text.file_and_broken_rules((SERIES_TEXT * count).encode())
            self.assertEqual((len(data), faults), (12 + 24 * count, []))
            head, *lines = text.text_from_file(data).decode().splitlines()
            self.assertRegex(head, '^# Series rows and position rows')
            self.assertEqual(lines, [f'{SERIES_TEXT.strip():<70}  # series row {row}' for row in range(count)])

    def test_there_and_back(self):
        faulty = [data for data, number, _ in FAULTY if number in (5, 6)]
        for data in without_positions() + faulty:
            self.assertEqual(text.file_from_text(text.text_from_file(data)), data)

    def test_the_longest_cover(self):
        for byte in (b'\n', b'\xff', b'"'):
            data = byte * (65_536 - 36) + file_with('')
            self.assertEqual(text.file_from_text(text.text_from_file(data)), data)
            self.assertEqual(serpentgleam.margin(data), NOTHING)

    def test_no_faults(self):
        for data in without_positions():
            self.assertEqual(text.check(data, False), [])
            self.assertEqual(text.check(text.text_from_file(data), True), [])

    def test_faulty(self):
        for data, number, row in FAULTY:
            faults = text.check(data, False)
            self.assertEqual((faults[0].refusal, faults[0].row or 0), (number, row))
            self.assertIsNotNone(faults[-1].refusal)  # the engine's answer is the first fault


class Command(unittest.TestCase):
    def setUp(self):
        self.folder = folder(self)
        self.paths = [written(os.path.join(self.folder, f'{number}.account'), data)
                      for number, data in enumerate(without_positions())]

    def test_margin(self):
        accepted = 'serpentgleam: 4 files: 4 accepted, 0 refused\n'
        self.assertEqual(command('margin', *self.paths), (
            0, ''.join(f'{path}\tpremium 0\n{path}\ttotal 0\n' for path in self.paths).encode(), accepted))
        status, output, errors = command('margin', '--json', *self.paths)
        self.assertEqual((status, [json.loads(line) for line in output.splitlines()], errors), (
            0, [{'file': path, 'lines': [], 'premium': 0, 'total': 0} for path in self.paths], accepted))
        self.assertEqual(command('margin', '--csv', *self.paths), (
            0, ('file,kind,written,held,row,contracts,amount,number,reason\n' + ''.join(
                f'{path},premium,,,,,0,,\n{path},total,,,,,0,,\n' for path in self.paths)).encode(), accepted))

    def test_among_others(self):
        status, output, errors = command('margin', self.paths[0], DOCUMENT, self.paths[1])
        self.assertEqual((status, errors), (0, 'serpentgleam: 3 files: 3 accepted, 0 refused\n'))
        self.assertEqual([line.split('\t')[1] for line in output.decode().splitlines()], [
            'premium 0', 'total 0', 'pair 0 2 3 0', 'pair 0 1 4 3000', 'left 0 3 7500', 'premium 300', 'total 10800',
            'premium 0', 'total 0'])

    def test_position(self):
        for path in self.paths:
            for row in ('0', '256'):
                self.assertEqual(command('position', path, row),
                                 (1, f'{path}\trefused 13 0\t{REASON}\n'.encode(), ''))
            self.assertEqual(json.loads(command('position', '--json', path, '0')[1]),
                             {'file': path, 'refused': {'number': 13, 'row': 0, 'reason': REASON}})
            self.assertEqual(command('position', '--csv', path, '0')[1].decode().split('\n')[1:],
                             [f'{path},refused,,,0,,,13,{REASON}', ''])

    def test_to_text_and_to_file(self):
        for path in self.paths:
            there = path.replace('.account', '.txt')
            self.assertEqual(command('to-text', path, '-o', there), (0, b'', ''))
            self.assertEqual(command('to-file', there), (0, bytes_of(path), ''))

    def test_check(self):
        texts = [written(path.replace('.account', '.txt'), text.text_from_file(bytes_of(path))) for path in self.paths]
        self.assertEqual(command('check', *self.paths, *texts),
                         (0, b'', 'serpentgleam: 8 files: 8 in order, 0 with faults\n'))
        objects = [json.loads(line) for line in command('check', '--json', *self.paths)[1].splitlines()]
        self.assertEqual(objects, [{'file': path, 'faults': []} for path in self.paths])
        faulty = written(os.path.join(self.folder, 'x.txt'),
                         (SERIES_TEXT + SERIES_TEXT.replace('PV=3000', 'PV=0')).encode())
        self.assertEqual(command('check', '-q', faulty), (
            1, f'{faulty}: line 2, series row 1, field PV: refusal 5: PV is 1 to 10000000\n'.encode(), ''))


if __name__ == '__main__':
    unittest.main()
