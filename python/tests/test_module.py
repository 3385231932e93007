"""The module: margins, amounts and refusals of the library, on any threads, and what it says where it is not found."""
import concurrent.futures
import doctest
import os
import pickle
import re
import subprocess
import sys
import unittest

from support import DOCUMENT, SERIES_TEXT, TOP, VECTORS, WRONG_SIDE, bytes_of, folder, long_account, written

import serpentgleam
from serpentgleam import Left, Margin, Pair, Refusal, Refused, engine
from serpentgleam.library import NAME, VARIABLE
from serpentgleam.text import file_from_text

THREE_ROWS = Margin((Pair(0, 2, 3, 0), Pair(0, 1, 4, 3000)), (Left(0, 3, 7500),), 300, 10_800)


def printed(answer):
    """The answer as the program margin prints it."""
    if isinstance(answer, Refusal):
        return f'refused {answer.number} {answer.row}'
    lines = [f'pair {pair.written} {pair.held} {pair.contracts} {pair.amount}' for pair in answer.pairs]
    lines += [f'left {left.row} {left.contracts} {left.amount}' for left in answer.left]
    return '\n'.join(lines + [f'premium {answer.premium}', f'total {answer.total}'])


class Answers(unittest.TestCase):
    def test_document(self):
        self.assertEqual(serpentgleam.margin(bytes_of(DOCUMENT)), THREE_ROWS)

    def test_vectors(self):
        for data, answer in VECTORS:
            self.assertEqual(printed(serpentgleam.margin_or_refusal(data)), answer)

    def test_bytes_like(self):
        data = bytes_of(DOCUMENT)
        for like in (bytearray(data), memoryview(data), memoryview(b'x' + data)[1:]):
            self.assertEqual(serpentgleam.margin(like), THREE_ROWS)
        for other in ('text', None, 7, [1, 2]):
            self.assertRaises(TypeError, serpentgleam.margin, other)

    def test_lengths(self):
        for data in (b'', b'\0' * 11, bytes(65_537), bytes(1_000_000)):
            self.assertEqual(serpentgleam.margin_or_refusal(data), Refusal(1, 0))

    def test_a_long_answer_leaves_nothing_for_the_next(self):
        self.assertEqual(len(serpentgleam.margin(long_account()).left + serpentgleam.margin(long_account()).pairs), 256)
        self.assertEqual(serpentgleam.margin(bytes_of(DOCUMENT)), THREE_ROWS)

    def test_threads(self):
        files = [data for data, _ in VECTORS[:700]] * 3
        with concurrent.futures.ThreadPoolExecutor(8) as threads:
            together = list(threads.map(serpentgleam.margin_or_refusal, files))
        self.assertEqual(together, [serpentgleam.margin_or_refusal(data) for data in files])


class Limiters(unittest.TestCase):
    """Limiters inside a spread: docs/RULES.md, section 6.4. Row 0 is written, row 1 held, both of 10 contracts."""

    def check(self, kind, written_row, held_row, amount, pair):
        """The amount of the written row by itself, and that of its pair with the held one, None where there is none."""
        rows = f'written Q=10 {written_row} european\nheld Q=10 {held_row} european\n'
        data = file_from_text((SERIES_TEXT.replace('call', kind) + rows).encode())
        self.assertEqual(serpentgleam.position_amount(data, 0), amount)
        apart = Margin((), (Left(0, 10, amount), Left(1, 10, 0)), 0, amount)
        expected = apart if pair is None else Margin((Pair(0, 1, 10, pair),), (), 0, pair)
        self.assertEqual(serpentgleam.margin(data), expected)

    def test_calls_around_the_written_limiter(self):
        for price, pair in ((3299, None), (3300, 2_500), (3301, 2_500), (10_000_000, 2_500)):
            self.check('call', 'PE=3100 PB=3300', f'PE=3150 PB={price}', 10_000, pair)

    def test_puts_around_the_written_limiter(self):
        for price, pair in ((2901, None), (2900, 4_000), (2899, 4_000), (0, 4_000)):
            self.check('put', 'PE=3200 PB=2900', f'PE=3120 PB={price}', 15_000, pair)

    def test_a_limiter_on_one_row(self):
        self.check('call', 'PE=3100 PB=3300', 'PE=3150', 10_000, 2_500)
        self.check('call', 'PE=3100', 'PE=3150 PB=10000000', 25_000, None)
        self.check('put', 'PE=3200 PB=2900', 'PE=3120', 15_000, 4_000)
        self.check('put', 'PE=3200', 'PE=3120 PB=1', 40_000, None)

    def test_a_limiter_of_zero(self):
        for written_row, held_row, pair in (('PB=0', 'PB=0', 4_000), ('PB=1', 'PB=0', 4_000), ('PB=0', 'PB=1', None),
                                            ('PB=0', '', 4_000), ('', 'PB=0', None)):
            self.check('put', f'PE=3200 {written_row}', f'PE=3120 {held_row}', 40_000, pair)
        self.check('put', 'PE=3200', 'PE=3200 PB=0', 40_000, None)

    def test_knock_outs(self):
        row = 'PE=3100 PB=3300 down-and-out=2400 REB=60'
        for price, pair in ((3299, None), (3300, 3_000), (3301, 3_000)):
            self.check('call', row, f'PE=3000 PB={price} down-and-out=2300 REB=60', 10_000, pair)
        self.check('call', row, 'PE=3000 down-and-out=2400 REB=25', 10_000, 1_800)  # 35 x 5 x 10 = 1,750, rounded up

    def test_knock_ins(self):
        row = 'PE=3100 PB=3300 up-and-in=3500 REB=40'
        self.check('call', row, row, 10_000, 0)
        self.check('call', row, row.replace('3300', '3301'), 10_000, None)
        self.check('call', row + ' knocked-in', row.replace('3300', '3301') + ' knocked-in', 10_000, 0)
        self.check('call', 'PE=3100', row + ' knocked-in', 25_000, None)

    def test_a_barred_pair_is_passed_over(self):
        rows = ('written Q=10 PE=3100 PB=3300 european\nheld Q=4 PE=3110 PB=3299 premium=20 european\n'
                'held Q=4 PE=3120 european\nheld Q=4 PE=3130 PB=3300 european\n')
        self.assertEqual(serpentgleam.margin(file_from_text((SERIES_TEXT + rows).encode())), Margin(
            (Pair(0, 2, 4, 400), Pair(0, 3, 4, 600)), (Left(0, 2, 2_000), Left(1, 4, 0)), 400, 3_400))


class Docstrings(unittest.TestCase):
    def test_their_examples(self):
        self.addCleanup(os.chdir, os.getcwd())
        os.chdir(TOP)
        tried = doctest.testmod(engine)
        self.assertEqual((tried.failed, tried.attempted > 0), (0, True))


class Refusals(unittest.TestCase):
    def test_number_row_and_reason(self):
        with self.assertRaises(Refused) as raised:
            serpentgleam.margin(bytes_of(WRONG_SIDE))
        refused = raised.exception
        self.assertEqual((refused.number, refused.row, refused.refusal), (11, 2, Refusal(11, 2)))
        self.assertEqual(refused.reason, 'a position row: barrier on the wrong side of PV')
        self.assertEqual(str(refused), 'refused 11 2: a position row: barrier on the wrong side of PV')

    def test_between_processes(self):
        again = pickle.loads(pickle.dumps(Refused(Refusal(8, 3))))
        self.assertEqual((again.number, again.row, again.reason), (8, 3, serpentgleam.REASONS[8]))

    def test_every_number_has_a_sentence(self):
        self.assertEqual(list(serpentgleam.REASONS), [number for number in range(1, 21) if number not in (3, 15)])


class Amounts(unittest.TestCase):
    def test_document(self):
        self.assertEqual([serpentgleam.position_amount(bytes_of(DOCUMENT), row) for row in range(3)], [25_000, 0, 300])

    def test_rows_that_are_not_there(self):
        for row in (3, 256, 257, 2 ** 64 - 1, 2 ** 64, 2 ** 64 + 1, 10 ** 30):
            with self.assertRaises(Refused) as raised:
                serpentgleam.position_amount(bytes_of(DOCUMENT), row)
            self.assertEqual(raised.exception.refusal, Refusal(13, 0))
        self.assertRaises(ValueError, serpentgleam.position_amount, bytes_of(DOCUMENT), -1)
        self.assertRaises(TypeError, serpentgleam.position_amount, bytes_of(DOCUMENT), 1.0)

    def test_refused_files_have_the_margin_s_refusal(self):
        for data, answer in VECTORS:
            if answer.startswith('refused'):
                with self.assertRaises(Refused) as raised:
                    serpentgleam.position_amount(data, 0)
                self.assertEqual(printed(raised.exception.refusal), answer)


class Library(unittest.TestCase):
    def error(self, **environment):
        """What the first call says where the environment is so."""
        code = ('import serpentgleam\ntry:\n    serpentgleam.margin(b"")\n'
                'except (serpentgleam.NotFound, serpentgleam.Refused) as error:\n    print(error)')
        run = subprocess.run([sys.executable, '-c', code], cwd=os.path.join(TOP, 'python'), capture_output=True,
                             env={**os.environ, **environment}, check=True)
        return run.stdout.decode()

    def test_named_by_the_variable(self):
        built = os.path.join(TOP, 'target', 'staticlib', NAME)
        self.assertRegex(self.error(**{VARIABLE: built}), '^refused 1 0')

    def test_not_there(self):
        self.assertRegex(self.error(**{VARIABLE: '/none/x.so'}), r'not found \(/none/x\.so: not there\)')

    def test_another_file(self):
        place = folder(self)
        no_library = written(os.path.join(place, 'x.so'), b'no library')
        self.assertRegex(self.error(**{VARIABLE: no_library}), re.escape(no_library) + '.*file too short')
        self.assertIn('not that of the library', self.error(**{VARIABLE: 'libc.so.6'}))


if __name__ == '__main__':
    unittest.main()
