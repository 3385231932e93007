"""A day's high, low and close: the library's call and the module against the reference's days, and against the day
worked out row by row.
"""
import concurrent.futures
import ctypes
import itertools
import random
import unittest

from support import (AFTER_THE_DAY, BEFORE_THE_DAY, DOCUMENT, SERIES_TEXT, VECTORS, WRONG_SIDE, bytes_of,
                     earlier_library, file_with, long_account, without_positions)

from account_batch import days

import serpentgleam
from serpentgleam import NotFound, Refusal, Refused, library
from serpentgleam.layout import HIGHEST, Account, account_of, file_of
from serpentgleam.text import file_from_text

DAY = (0, 3500, 2700, 2900)  # series, high, low and close of the example
UP = (1, 3)                  # kinds of barriers that the high touches
MARKS = {1: ('knocked-in', 1), 2: ('knocked-in', 1), 3: ('knocked-out', 16), 4: ('knocked-out', 16)}
TOO_LARGE = (HIGHEST + 1, 2 ** 32, 2 ** 32 + 2900, 2 ** 63, 2 ** 64 - 1, 2 ** 64, 2 ** 64 + 2900, 10 ** 30)
NO_SERIES, NO_PRICES = Refusal(16, 0), Refusal(17, 0)
NO_DAYS = ((3000, 3001, 3000), (3000, 3001, 3001), (3100, 2900, 2899), (3100, 2900, 3101), (0, 0, 0), (3100, 0, 3000),
           (3100, 0, 0), (HIGHEST + 1, 2900, 3000), (HIGHEST + 1, HIGHEST + 1, HIGHEST + 1))


def marked(row, high, low):
    """A row of the series after the day."""
    if row['kind'] == 0 or not (high >= row['barrier-price'] if row['kind'] in UP else low <= row['barrier-price']):
        return row
    name, bit = MARKS[row['kind']]
    return {**row, name: bit}


def after(data, series, high, low, close):
    """An accepted file after the day, made of its rows."""
    account = account_of(data)
    prices = [{**row, 'PV': close} if number == series else row for number, row in enumerate(account.series)]
    rows = [marked(row, high, low) if row['series'] == series else row for row in account.positions]
    return file_of(Account(account.cover, prices, rows))


def days_of(chance, data, count):
    """So many days of an accepted file's series: at its barriers, one tick beside them and at the limits."""
    account = account_of(data)
    for _ in range(count):
        series = chance.randrange(len(account.series))
        barriers = [row['barrier-price'] for row in account.positions if row['series'] == series and row['kind']]
        about = {price + step for price in (*barriers, account.series[series]['PV']) for step in (-1, 0, 1)}
        prices = [price for price in sorted({1, HIGHEST, *about}) if 1 <= price <= HIGHEST]
        low, close, high = sorted(chance.choices(prices, k=3))
        yield series, high, low, close


def called(data, *numbers):
    """What the library's call answers, and the bytes that were lent to it, with some before and after them."""
    fence = b'\xa5' * 64
    lent = ctypes.create_string_buffer(fence + data + fence, len(data) + 2 * len(fence))
    answer = library.day_call()(ctypes.addressof(lent) + len(fence), len(data), *numbers)
    if lent.raw[:len(fence)] != fence or lent.raw[-len(fence):] != fence:
        raise AssertionError('bytes outside the file are written')
    return (answer.refusal, answer.row, answer.value), lent.raw[len(fence):-len(fence)]


class Files(unittest.TestCase):
    def test_vectors(self):
        """Every accepted file is what its rows make it, is accepted, and the same day changes it no more."""
        chance, changed = random.Random(16), 0
        for data in [data for data, answer in VECTORS if not answer.startswith('refused')]:
            for day in days_of(chance, data, 6):
                expected = after(data, *day)
                self.assertEqual(serpentgleam.day(data, *day), expected)
                self.assertIsInstance(serpentgleam.margin_or_refusal(expected), serpentgleam.Margin)
                self.assertEqual(serpentgleam.day(expected, *day), expected)
                changed += sum(one != other for one, other in zip(data, expected)) > 4  # more than PV
        self.assertGreater(changed, 100)

    def test_vectors_that_are_refused(self):
        """The reading's refusal comes before those of the series and the prices."""
        for data, answer in VECTORS:
            if answer.startswith('refused'):
                refusal = Refusal(*map(int, answer.split()[1:]))
                for numbers in (DAY, (99, 3100, 2900, 3000), (0, 0, 0, 0), (2 ** 64 - 1,) * 4):
                    self.assertEqual(serpentgleam.day_or_refusal(data, *numbers), refusal)
                    self.assertEqual(called(data, *numbers), ((*refusal, 0), data))

    def test_days_of_the_reference(self):
        done = 0
        for data, numbers, line, expected in days():
            refusal = Refusal(*map(int, line.split()[1:])) if line.startswith('refused') else None
            self.assertEqual(serpentgleam.day_or_refusal(data, *numbers), refusal or expected)
            self.assertEqual(called(data, *numbers), ((*refusal, 0) if refusal else (0, 0, 0), expected))
            if refusal:
                self.assertEqual(expected, data)
            else:
                self.assertEqual((line, after(data, *numbers)), ('day', expected))
                done += 1
        self.assertGreater(done, 100)

    def test_days_one_after_the_other(self):
        chance = random.Random(17)
        for data in (bytes_of(BEFORE_THE_DAY), long_account()):
            for day in days_of(chance, data, 200):
                data, before = serpentgleam.day(data, *day), data
                self.assertEqual(data, after(before, *day))
                self.assertIsInstance(serpentgleam.margin_or_refusal(data), serpentgleam.Margin)

    def test_example(self):
        self.assertEqual(serpentgleam.day(bytes_of(BEFORE_THE_DAY), *DAY), bytes_of(AFTER_THE_DAY))
        self.assertEqual([serpentgleam.margin(bytes_of(path)).total for path in (BEFORE_THE_DAY, AFTER_THE_DAY)],
                         [97_000, 93_300])

    def test_no_positions(self):
        for data in without_positions():
            self.assertEqual(serpentgleam.day(data, 0, 3500, 2700, 2900), after(data, *DAY))

    def test_the_longest_cover_sheet(self):
        file = bytes_of(BEFORE_THE_DAY)
        data = bytes(range(256)) * 256 + file
        data = data[-65_536:]
        self.assertEqual(serpentgleam.day(data, *DAY), data[:-len(file)] + bytes_of(AFTER_THE_DAY))


class Touches(unittest.TestCase):
    def flags(self, words, high, low, close=3000):
        """The flags of a row after the day."""
        return account_of(serpentgleam.day(file_with(f'held Q=1 PE=3100 {words}'), 0, high, low, close)).positions[0]

    def test_at_the_barrier_and_one_tick_short(self):
        for kind, name in (('in', 'knocked-in'), ('out', 'knocked-out')):
            for words, high, low, touched in (
                    (f'up-and-{kind}=3500', 3499, 2900, False), (f'up-and-{kind}=3500', 3500, 2900, True),
                    (f'up-and-{kind}=3500', 3501, 2900, True), (f'up-and-{kind}=3500', 3499, 1, False),
                    (f'down-and-{kind}=2500', 3100, 2501, False), (f'down-and-{kind}=2500', 3100, 2500, True),
                    (f'down-and-{kind}=2500', 3100, 2499, True), (f'down-and-{kind}=2500', HIGHEST, 2501, False)):
                row = self.flags(words, high, low)
                self.assertEqual(bool(row[name]), touched, (words, high, low))
                self.assertEqual(sum(bool(row[flag]) for flag in ('knocked-in', 'knocked-out', 'other-flags')), touched)

    def test_flags_that_are_there_stay(self):
        for words in ('up-and-in=2000 knocked-in european', 'down-and-out=4000 PB=3300 knocked-out before-annex'):
            data = file_with(f'held Q=1 PE=3100 {words}')
            self.assertEqual(serpentgleam.day(data, 0, 3000, 3000, 3000), data)
            self.assertEqual(serpentgleam.day(data, 0, HIGHEST, 1, 3000), data)

    def test_the_price_alone(self):
        for close in (1, 2999, 3001, HIGHEST):
            data = file_with('written Q=10 PE=3100 european\nheld Q=4 PE=3250 premium=2 PB=3300 european\n')
            self.assertEqual(account_of(serpentgleam.day(data, 0, HIGHEST, 1, close)),
                             account_of(data)._replace(series=[{**account_of(data).series[0], 'PV': close}]))

    def test_another_series(self):
        text = SERIES_TEXT * 32 + ''.join(f'held series={number} Q=1 PE=1 up-and-out=3500\n' for number in range(32))
        data = file_from_text(text.encode())
        for series in (0, 1, 31):
            account = account_of(serpentgleam.day(data, series, 3500, 3000, 3400))
            self.assertEqual([row['PV'] for row in account.series],
                             [3400 if number == series else 3000 for number in range(32)])
            self.assertEqual([bool(row['knocked-out']) for row in account.positions],
                             [number == series for number in range(32)])


class Refusals(unittest.TestCase):
    def check(self, data, numbers, refusal):
        self.assertEqual(serpentgleam.day_or_refusal(data, *numbers), refusal)
        with self.assertRaises(Refused) as raised:
            serpentgleam.day(data, *numbers)
        self.assertEqual((raised.exception.refusal, raised.exception.reason),
                         (refusal, serpentgleam.REASONS[refusal.number]))
        if max(numbers) < 2 ** 64:
            self.assertEqual(called(data, *numbers), ((*refusal, 0), data))

    def test_no_such_series(self):
        data = bytes_of(BEFORE_THE_DAY)
        for series in (2, 3, 32, 65_535, 65_536, *TOO_LARGE):
            for prices in ((3500, 2700, 2900), *NO_DAYS):  # 16 comes before 17
                self.check(data, (series, *prices), NO_SERIES)

    def test_prices(self):
        data = bytes_of(BEFORE_THE_DAY)
        for prices in NO_DAYS:
            self.check(data, (1, *prices), NO_PRICES)
        for price in TOO_LARGE:
            for prices in ((price, 2700, 2900), (3500, price, 2900), (3500, 2700, price), (price, price, price)):
                self.check(data, (1, *prices), NO_PRICES)

    def test_every_order_of_three_prices(self):
        data = bytes_of(DOCUMENT)
        for high, low, close in itertools.product((0, 1, 2, HIGHEST - 1, HIGHEST, HIGHEST + 1), repeat=3):
            answer = serpentgleam.day_or_refusal(data, 0, high, low, close)
            in_order = 1 <= low <= close <= high <= HIGHEST
            self.assertEqual(answer, after(data, 0, high, low, close) if in_order else NO_PRICES)

    def test_the_file_first(self):
        self.check(bytes_of(WRONG_SIDE), (9, 0, 0, 0), Refusal(11, 2))
        self.check(b'', DAY, Refusal(1, 0))
        self.check(bytes(65_537), DAY, Refusal(1, 0))

    def test_no_bytes(self):
        answer = library.day_call()(None, 0, *DAY)
        self.assertEqual((answer.refusal, answer.row, answer.value), (1, 0, 0))


class Module(unittest.TestCase):
    def test_what_is_handed_over_stays(self):
        before = bytes_of(BEFORE_THE_DAY)
        for like in (before, bytearray(before), memoryview(bytearray(before)), memoryview(b'x' + before)[1:]):
            answer = serpentgleam.day(like, *DAY)
            self.assertEqual((type(answer), answer), (bytes, bytes_of(AFTER_THE_DAY)))
            self.assertEqual(bytes(like), before)

    def test_names(self):
        self.assertEqual(serpentgleam.day(bytes_of(BEFORE_THE_DAY), series=0, high=3500, low=2700, close=2900),
                         bytes_of(AFTER_THE_DAY))

    def test_what_is_no_number_from_0_on(self):
        data = bytes_of(BEFORE_THE_DAY)
        for place, what in enumerate(('a series', 'the high', 'the low', 'the close')):
            for number in (-1, -2 ** 64):
                numbers = [*DAY[:place], number, *DAY[place + 1:]]
                for call in (serpentgleam.day, serpentgleam.day_or_refusal):
                    self.assertRaisesRegex(ValueError, f'^{what} is a number from 0 on: -', call, data, *numbers)
            for other in (1.0, None, '1', [1]):
                self.assertRaises(TypeError, serpentgleam.day, data, *DAY[:place], other, *DAY[place + 1:])
        for other in ('text', None, 7, [1, 2]):
            self.assertRaises(TypeError, serpentgleam.day, other, *DAY)

    def test_threads(self):
        asked = [(data, day) for data, answer in VECTORS[:500] if not answer.startswith('refused')
                 for day in days_of(random.Random(len(data)), data, 3)]
        with concurrent.futures.ThreadPoolExecutor(8) as threads:
            together = list(threads.map(lambda one: serpentgleam.day(one[0], *one[1]), asked))
        self.assertEqual(together, [after(data, *day) for data, day in asked])


class EarlierLibrary(unittest.TestCase):
    """A library before version 0.5.0, which has no call for a day."""

    def test_it_has_margins_and_no_day(self):
        earlier_library(self, 'day')
        self.assertEqual(serpentgleam.margin(bytes_of(DOCUMENT)).total, 10_800)
        self.assertRaisesRegex(NotFound, 'of an earlier version: undefined symbol: serpentgleam_day',
                               serpentgleam.day, bytes_of(DOCUMENT), *DAY)


if __name__ == '__main__':
    unittest.main()
