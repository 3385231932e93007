"""Flag 16, already knocked out: margins, pairs and refusals of such rows, and their word in the text."""
import unittest

from support import SERIES_TEXT, file_with, row_with, whole_reais

import serpentgleam
from serpentgleam import Left, Margin, Pair, Refusal
from serpentgleam.layout import account_of, file_of
from serpentgleam.text import check, file_from_text, text_from_file

FLAG = 16
FLAGS_AT = 24 + 4  # of the first position row, from the first series row on


def account(kind, rows):
    """The file of one series, call or put, and these rows."""
    return file_from_text((SERIES_TEXT.replace('call', kind) + rows).encode())


def with_flags(row_text, flags):
    """The file of a row that has these flags."""
    data = bytearray(file_with(row_text))
    data[FLAGS_AT] = flags
    return bytes(data)


class Margins(unittest.TestCase):
    """MM is 150 ticks, H 3600 and L 2400; ten contracts of five centavos a tick."""

    def test_the_rebate_alone(self):
        for kind in ('call', 'put'):
            for barrier in ('up-and-out=3500', 'up-and-out=3700', 'down-and-out=2500', 'down-and-out=2300'):
                for limiter in ('', 'PB=3300' if kind == 'call' else 'PB=2900'):
                    for rebate in (0, 1, 149, 150, 151, 10_000_000):
                        row = f'written Q=10 PE=3100 {limiter} {barrier} REB={rebate} knocked-out'
                        data, amount = account(kind, row), whole_reais(rebate * 5 * 10)
                        self.assertEqual(serpentgleam.position_amount(data, 0), amount)
                        self.assertEqual(serpentgleam.margin(data), Margin((), (Left(0, 10, amount),), 0, amount))

    def test_before_the_flag(self):
        row = 'written Q=10 PE=3100 up-and-out=3500 REB=40 european'
        self.assertEqual(serpentgleam.position_amount(file_with(row), 0), 20_000)
        self.assertEqual(serpentgleam.position_amount(file_with(row + ' knocked-out'), 0), 2_000)

    def test_the_largest_amount(self):
        data = account('call', 'written Q=100000 PE=1 up-and-out=1 REB=10000000 knocked-out').replace(
            (5).to_bytes(4, 'little'), (1000).to_bytes(4, 'little'), 1)
        self.assertEqual(serpentgleam.margin(data).total, 100_000 * 10_000_000 * 1_000)

    def test_held(self):
        data = file_with('held Q=10 PE=3100 up-and-out=3500 REB=40 premium=20 knocked-out european\n')
        self.assertEqual(serpentgleam.position_amount(data, 0), 1_000)
        self.assertEqual(serpentgleam.margin(data), Margin((), (Left(0, 10, 0),), 1_000, 1_000))


class Pairs(unittest.TestCase):
    def test_the_same_rows(self):
        row = 'Q=10 PE=3100 up-and-out=3500 REB=40 european'
        self.assertEqual(serpentgleam.margin(file_with(f'written {row}\nheld {row}\n')).pairs, (Pair(0, 1, 10, 0),))
        for flags, amount in (((' knocked-out', ' knocked-out'), 2_000), ((' knocked-out', ''), 2_000),
                              (('', ' knocked-out'), 20_000)):
            data = file_with(f'written {row}{flags[0]}\nheld {row}{flags[1]}\n')
            self.assertEqual(serpentgleam.margin(data),
                             Margin((), (Left(0, 10, amount), Left(1, 10, 0)), 0, amount))

    def test_no_other_row_either(self):
        knocked_out = ('up-and-out=3500 REB=600 knocked-out', 'down-and-out=2400 REB=600 knocked-out')
        others = ('', 'PB=3300', 'up-and-in=3500 knocked-in', 'up-and-out=3600', 'down-and-out=2300', 'up-and-out=3500')
        for one in knocked_out:
            for other in knocked_out + others:
                for style in ('european', 'before-annex'):
                    for first, second in ((one, other), (other, one)):
                        data = file_with(f'written Q=10 PE=3100 {first} {style}\nheld Q=10 PE=3000 {second} {style}\n')
                        self.assertEqual(serpentgleam.margin(data).pairs, ())

    def test_such_a_row_is_passed_over(self):
        rows = ('written Q=10 PE=3100 up-and-out=3601 european\nheld Q=4 PE=3100 up-and-out=3601 knocked-out european\n'
                'held Q=3 PE=3000 up-and-out=3700 european\nwritten Q=2 PE=3000 down-and-out=2999 REB=7 knocked-out '
                'european\n')
        self.assertEqual(serpentgleam.margin(file_with(rows)), Margin(
            (Pair(0, 2, 3, 0),), (Left(0, 7, 17_500), Left(1, 4, 0), Left(3, 2, 100)), 0, 17_600))  # 7 x 5 x 2 = 70


class Refusals(unittest.TestCase):
    def refusal(self, data):
        """The refusal of a file, which is that of the first fault of its text too, or None."""
        answer = serpentgleam.margin_or_refusal(data)
        faults = check(data, False)
        refused = answer if isinstance(answer, Refusal) else None
        self.assertEqual(Refusal(faults[0].refusal, faults[0].row or 0) if faults else None, refused)
        return refused

    def test_kinds(self):
        for barrier, kind in (('', 0), ('up-and-in=3500', 1), ('down-and-in=2500', 2), ('up-and-out=3500', 3),
                              ('down-and-out=2500', 4), ('kind=5 barrier-price=3500', 5)):
            self.assertEqual(self.refusal(with_flags(f'written Q=10 PE=3100 {barrier}', FLAG)),
                             None if kind in (3, 4) else Refusal(7, 0))

    def test_every_byte_of_flags(self):
        for barrier, allowed in (('', 4 | 8), ('up-and-in=3500', 1 | 4 | 8), ('up-and-out=3500', 4 | 8 | 16)):
            for flags in range(256):
                data = with_flags(f'written Q=10 PE=3100 {barrier}', flags)
                limiter = Refusal(9, 0) if flags & 2 else None  # the flag is there, and PB is 0
                self.assertEqual(self.refusal(data), Refusal(7, 0) if flags & ~(allowed | 2) else limiter)

    def test_either_side_of_today_s_price(self):
        for barrier in ('up-and-out', 'down-and-out'):
            for price in (1, 2999, 3000, 3001, 10_000_000):
                row = f'written Q=10 PE=3100 {barrier}={price}'
                on_its_side = price > 3000 if barrier == 'up-and-out' else price < 3000
                self.assertEqual(self.refusal(file_with(row)), None if on_its_side else Refusal(11, 0))
                self.assertIsNone(self.refusal(file_with(row + ' knocked-out')))

    def test_the_other_refusals_stay(self):
        for words, number in (('Q=0 PE=3100 up-and-out=3500', 8), ('Q=1 PE=0 up-and-out=3500', 8),
                              ('Q=1 PE=3100 up-and-out=3500 REB=10000001', 8),
                              ('Q=1 PE=3100 up-and-out=3500 premium=1', 8), ('Q=1 PE=3100 PB=3100 up-and-out=3500', 9),
                              ('Q=1 PE=3100 up-and-out=0', 10), ('Q=1 PE=3100 down-and-out=10000001', 10)):
            self.assertEqual(self.refusal(file_with(f'written {words} knocked-out')), Refusal(number, 0))


class Text(unittest.TestCase):
    def test_word(self):
        row = row_with('held Q=1 PE=2 up-and-out=3 knocked-out')
        self.assertEqual(row['knocked-out'], FLAG)
        self.assertEqual([row[name] for name in ('knocked-in', 'other-flags')], [0, 0])

    def test_there_and_back(self):
        for flags in range(256):
            for barrier in ('', 'up-and-in=3500', 'down-and-out=2500', 'kind=9 barrier-price=1'):
                data = with_flags(f'written Q=10 PE=3100 {barrier}', flags)
                text = text_from_file(data)
                (row,) = [line.split() for line in text.decode().splitlines() if line.startswith('written')]
                self.assertEqual(file_from_text(text), data)
                self.assertEqual('knocked-out' in row, bool(flags & FLAG))
                self.assertEqual(f'other-flags={flags & 0xe0}' in row, flags >= 32)

    def test_sentences(self):
        for words, sentences in (
                ('up-and-in=3500 knocked-out', ['field knocked-out: refusal 7: knocked-out is for up-and-out and '
                                                'down-and-out']),
                ('knocked-out', ['field knocked-out: refusal 7: knocked-out is for up-and-out and down-and-out']),
                ('up-and-out=3500 knocked-in', ['field knocked-in: refusal 7: knocked-in is for up-and-in and '
                                                'down-and-in']),
                ('up-and-out=3000', ['field barrier-price: refusal 11: an up barrier is above PV, unless knocked-in or '
                                     'knocked-out']),
                ('down-and-out=3000', ['field barrier-price: refusal 11: a down barrier is below PV, unless knocked-in '
                                       'or knocked-out']),
                ('up-and-out=3000 knocked-out', []), ('down-and-out=3000 knocked-out', [])):
            data = file_with(f'written Q=10 PE=3100 {words}')
            self.assertEqual([str(fault) for fault in check(data, False)],
                             [f'position row 0, {sentence}' for sentence in sentences])
            self.assertEqual(text_from_file(data).decode().count('\n#   refusal '), len(sentences))

    def test_rows_with_the_word_in_a_long_account(self):
        rows = account_of(file_with('written Q=1 PE=3100 up-and-out=3500 REB=2 knocked-out european')).positions * 256
        data = file_of(account_of(file_with(''))._replace(positions=rows))
        self.assertEqual(file_from_text(text_from_file(data)), data)
        self.assertEqual(serpentgleam.margin(data).total, 256 * whole_reais(2 * 5))


if __name__ == '__main__':
    unittest.main()
