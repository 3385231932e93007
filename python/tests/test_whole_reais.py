"""Amounts in whole reais: those of lines and of written rows are multiples of 100 centavos, each rounded up once and by
itself, so that a pair can raise the total. Premiums are exact.
"""
import unittest

from support import SERIES_TEXT, VECTORS, WHOLE_REAIS, bytes_of, command, file_with, whole_reais

import serpentgleam
from serpentgleam import Left, Margin, Pair, engine
from serpentgleam.layout import account_of, file_of

HEADER = ' '.join(bytes_of('include', 'serpentgleam.h').decode().replace('\n *', ' ').split())
LARGEST_AMOUNT, LARGEST_TOTAL = 9_999_999_900_000_000, 2_559_999_974_400_000_000
SMALL_SERIES = 'series call PV=10 fa=1.2 fb=0.8 f3=0.0 M=1\n'
ONE_CENTAVO_A_TICK = SERIES_TEXT.replace('M=5', 'M=1')
ACCEPTED = [data for data, answer in VECTORS if not answer.startswith('refused')]


def rows_of(data):
    """Of each position row whether it is written, its premium in centavos, and its amount by itself."""
    laid_out = account_of(data)
    for number, row in enumerate(laid_out.positions):
        premium = row['premium'] * laid_out.series[row['series']]['M'] * row['Q']
        yield bool(row['side']), premium, serpentgleam.position_amount(data, number)


class Vectors(unittest.TestCase):
    def test_lines_and_total(self):
        """The amounts of lines are multiples of 100, and what a total has beside them are the exact premiums."""
        amounts, odd_totals = 0, 0
        for data in ACCEPTED:
            margin = serpentgleam.margin(data)
            lines = [line.amount for line in margin.pairs + margin.left]
            self.assertEqual([amount % 100 for amount in lines], [0] * len(lines))
            self.assertEqual(margin.total, sum(lines) + sum(premium for _, premium, _ in rows_of(data)))
            amounts += sum(amount > 0 for amount in lines)
            odd_totals += margin.total % 100 > 0
        self.assertGreater(amounts, 1000)
        self.assertGreater(odd_totals, 0)

    def test_rows(self):
        """The amount of a written row is a multiple of 100, that of a held row its premium."""
        written_rows, odd_premiums = 0, 0
        for data in ACCEPTED:
            for written, premium, amount in rows_of(data):
                self.assertEqual(amount, whole_reais(amount) if written else premium)
                written_rows += written and amount > 0
                odd_premiums += amount % 100 > 0
        self.assertGreater(written_rows, 1000)
        self.assertGreater(odd_premiums, 0)

    def test_rows_in_no_pair(self):
        """Their line has the amount of the row by itself."""
        for data in ACCEPTED:
            margin, rows = serpentgleam.margin(data), list(rows_of(data))
            paired = {pair.written for pair in margin.pairs}
            for left in margin.left:
                written, _, amount = rows[left.row]
                if written and left.row not in paired:
                    self.assertEqual(left.amount, amount)

    def test_what_all_pairs_add_at_most(self):
        """Together they raise the total above that of the rows by themselves by no more than 100 centavos for each."""
        raised = 0
        for data in ACCEPTED:
            margin = serpentgleam.margin(data)
            apart = sum(amount for _, _, amount in rows_of(data))
            self.assertLessEqual(margin.total, apart + 100 * len(margin.pairs))
            raised += margin.total > apart
        self.assertGreater(raised, 0)


class Rounding(unittest.TestCase):
    def check(self, series, row, amount):
        """The amount of the one written row by itself, and of its line."""
        data = file_with(row, series)
        self.assertEqual(serpentgleam.position_amount(data, 0), amount)
        margin = serpentgleam.margin(data)
        self.assertEqual((margin.pairs, [left.amount for left in margin.left], margin.total), ((), [amount], amount))

    def test_document(self):
        series = 'series call PV=3001 fa=1.234567 fb=0.8 f3=0.05 M=5\n'
        self.check(series, 'written Q=10 PE=3100 european', 30_300)

    def test_around_multiples(self):
        for centavos in (0, 1, 50, 99, 100, 101, 199, 200, 201, 9_999_899, 9_999_900, 9_999_901, 10_000_000):
            self.check(ONE_CENTAVO_A_TICK, f'written Q=1 PE=1 up-and-out=1 REB={centavos} knocked-out',
                       whole_reais(centavos))

    def test_less_than_a_centavo_above(self):
        self.check(SMALL_SERIES, 'written Q=50 PE=10', 100)
        self.check(SMALL_SERIES.replace('fa=1.2', 'fa=1.200001'), 'written Q=50 PE=10', 200)

    def test_all_contracts_together(self):
        """The product is rounded once, and not each contract."""
        for contracts in (1, 2, 3, 99, 100, 101, 100_000):
            self.check(ONE_CENTAVO_A_TICK, f'written Q={contracts} PE=1 up-and-out=1 REB=50 knocked-out',
                       whole_reais(50 * contracts))

    def test_pairs(self):
        for difference in (1, 99, 100, 101, 499):
            for contracts in (1, 2, 7):
                data = file_with(f'written Q={contracts} PE=3100 european\n'
                                 f'held Q={contracts} PE={3100 + difference} european', ONE_CENTAVO_A_TICK)
                amount = whole_reais(difference * contracts)
                self.assertEqual(serpentgleam.margin(data), Margin((Pair(0, 1, contracts, amount),), (), 0, amount))


class RaisedTotal(unittest.TestCase):
    """A written row of two contracts, and a held one that pairs with one of them."""
    WRITTEN, HELD = 'written Q=2 PE=10 european\n', 'held Q=1 PE=11 european\n'

    def test_by_a_pair(self):
        alone, both = file_with(self.WRITTEN, SMALL_SERIES), file_with(self.WRITTEN + self.HELD, SMALL_SERIES)
        self.assertEqual([serpentgleam.position_amount(data, 0) for data in (alone, both)], [100, 100])
        self.assertEqual(serpentgleam.margin(alone), Margin((), (Left(0, 2, 100),), 0, 100))
        self.assertEqual(serpentgleam.margin(both), Margin((Pair(0, 1, 1, 100),), (Left(0, 1, 100),), 0, 200))

    def test_by_many_pairs(self):
        """255 pairs raise it from 600 to 25,600."""
        written = self.WRITTEN.replace('Q=2', 'Q=256')
        alone, all_rows = file_with(written, SMALL_SERIES), file_with(written + self.HELD * 255, SMALL_SERIES)
        self.assertEqual(serpentgleam.margin(alone).total, 600)
        margin = serpentgleam.margin(all_rows)
        self.assertEqual((len(margin.pairs), margin.total), (255, 25_600))

    def test_example(self):
        data = bytes_of(WHOLE_REAIS)
        self.assertEqual([serpentgleam.position_amount(data, row) for row in (0, 1)], [100, 7])
        self.assertEqual(serpentgleam.margin(data), Margin((Pair(0, 1, 1, 100),), (Left(0, 1, 100),), 7, 207))
        lines = ('pair 0 1 1 100', 'left 0 1 100', 'premium 7', 'total 207')
        self.assertEqual(command('margin', '-q', WHOLE_REAIS),
                         (0, ''.join(f'{WHOLE_REAIS}\t{line}\n' for line in lines).encode(), ''))


class Premiums(unittest.TestCase):
    def test_exact(self):
        for premium, contracts in ((7, 3), (1, 1), (13, 7), (20, 5), (9_999_999, 99_999)):
            amount = premium * 5 * contracts
            for words in ('', 'up-and-out=3500 REB=40 knocked-out'):
                data = file_with(f'held Q={contracts} PE=3100 premium={premium} {words}')
                self.assertEqual(serpentgleam.position_amount(data, 0), amount)
                self.assertEqual(serpentgleam.margin(data), Margin((), (Left(0, contracts, 0),), amount, amount))

    def test_paired(self):
        data = file_with('written Q=3 PE=3100 european\nheld Q=3 PE=3101 premium=7 european')
        self.assertEqual(serpentgleam.margin(data), Margin((Pair(0, 1, 3, 100),), (), 105, 205))

    def test_what_is_left_of_the_total(self):
        """The premium that the module shows is the total less the amounts of the lines, as they stand in the lines."""
        numbers = [1, 0, 1, 3, 100, 2, 0, 4, 300, 0]
        self.assertEqual(engine.margin_of_lines(numbers, 505),
                         Margin((Pair(0, 1, 3, 100),), (Left(0, 4, 300),), 105, 505))


class Largest(unittest.TestCase):
    ROW = 'written Q=100000 PE=1 european\n'
    SERIES = 'series call PV=10000000 fa=10.0 fb=0.0 f3=1.0 M=1000\n'

    def test_amount_and_total(self):
        one = account_of(file_with(self.ROW, self.SERIES))
        data = file_of(one._replace(positions=one.positions * 256))
        self.assertEqual(serpentgleam.position_amount(data, 255), LARGEST_AMOUNT)
        margin = serpentgleam.margin(data)
        self.assertEqual({left.amount for left in margin.left}, {LARGEST_AMOUNT})
        self.assertEqual((margin.premium, margin.total), (0, LARGEST_TOTAL))
        self.assertEqual(LARGEST_TOTAL, 256 * LARGEST_AMOUNT)

    def test_header(self):
        for said in (f'The largest amount is {LARGEST_AMOUNT:,}.', f'the largest total is {LARGEST_TOTAL:,},',
                     'Before version 0.6.0 '):
            self.assertIn(said, HEADER)


if __name__ == '__main__':
    unittest.main()
