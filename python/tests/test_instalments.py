"""Pairing in instalments: the library's calls and the module against the whole pairing, and against the amount worked
out from the pairs so far and the rows by themselves.
"""
import array
import concurrent.futures
import ctypes
import itertools
import random
import unittest

from lent_lists import (ACCEPTED, BELOW_0, LARGE, MARK, NOT_FIRST, TOO_LARGE, TOO_SHORT, Lent, amount_after,
                        lines_of, one_number_changed)
from support import (DOCUMENT, INSTALMENTS, VECTORS, WHOLE_REAIS, WRONG_SIDE, bytes_of, earlier_library, file_with,
                     long_account, without_positions)

import serpentgleam
from serpentgleam import NotFound, Pair, Refusal, Refused, engine, library
from serpentgleam.layout import account_of


class Pairs(unittest.TestCase):
    def test_document(self):
        data = bytes_of(DOCUMENT)
        first, second = Pair(0, 2, 3, 0), Pair(0, 1, 4, 3_000)
        self.assertEqual(serpentgleam.pair(data, (), 1), (first,))
        self.assertEqual(serpentgleam.pair(data, (first,), 1), (second,))
        self.assertEqual(serpentgleam.pair(data, (first, second), 1), ())
        self.assertEqual([serpentgleam.amount_so_far(data, (first, second)[:count]) for count in range(3)],
                         [25_300, 17_800, 10_800])

    def test_vectors(self):
        """With any allowances: the pairs of the margin in its order, and its total after all of them."""
        chance, calls = random.Random(7), 0
        for data in ACCEPTED:
            margin, pairs = serpentgleam.margin(data), ()
            while len(pairs) < len(margin.pairs):
                allowance = chance.choice((0, 1, 2, 3, 8, 64, len(margin.pairs) - len(pairs)))
                made = serpentgleam.pair(data, pairs, allowance)
                self.assertEqual(made, margin.pairs[len(pairs):len(pairs) + allowance])
                pairs, calls = pairs + made, calls + 1
            self.assertEqual(serpentgleam.pair(data, pairs, 8), ())
            self.assertEqual(serpentgleam.amount_so_far(data, pairs), margin.total)
        self.assertGreater(calls, 1000)

    def test_amounts_of_vectors(self):
        """After every number of pairs it is the one worked out, and no pair raises it by more than 100."""
        raised = fallen = 0
        for data in ACCEPTED:
            pairs = serpentgleam.margin(data).pairs
            counts = range(len(pairs) + 1) if len(pairs) < 20 else (0, 1, len(pairs) // 2, len(pairs) - 1)
            for count in counts:
                self.assertEqual(serpentgleam.amount_so_far(data, pairs[:count]), amount_after(data, count))
            amounts = [serpentgleam.amount_so_far(data, pairs[:count]) for count in range(len(pairs) + 1)]
            steps = [after - before for before, after in zip(amounts, amounts[1:])]
            self.assertLessEqual(max(steps, default=0), 100)
            raised, fallen = raised + sum(step > 0 for step in steps), fallen + sum(step < 0 for step in steps)
        self.assertGreater(raised, 0)
        self.assertGreater(fallen, 1000)

    def test_example(self):
        data, pairs = bytes_of(INSTALMENTS), ()
        for amount, made in ((52_515, 8), (34_515, 8), (19_715, 4), (13_515, 0)):
            self.assertEqual(serpentgleam.amount_so_far(data, pairs), amount)
            following = serpentgleam.pair(data, pairs, 8)
            self.assertEqual(len(following), made)
            pairs += following
        self.assertEqual((pairs, amount), (serpentgleam.margin(data).pairs, serpentgleam.margin(data).total))

    def test_every_split(self):
        """Whatever the allowances are, the pairs are the first ones, as many as they add up to or all."""
        data = file_with('written Q=5 PE=3100 european\n' + ''.join(
            f'held Q=1 PE={strike} european\n' for strike in (3140, 3110, 3130, 3120)))
        every = serpentgleam.margin(data).pairs
        self.assertEqual(len(every), 4)
        for allowances in itertools.product(range(6), repeat=3):
            pairs = ()
            for allowance in allowances:
                pairs += serpentgleam.pair(data, pairs, allowance)
            self.assertEqual(pairs, every[:sum(allowances)])

    def test_allowances(self):
        data = long_account()
        every = serpentgleam.margin(data).pairs
        self.assertGreater(len(every), 100)
        for count in (0, 1, 77, len(every) - 1, len(every)):
            rest = every[count:]
            for allowance in (0, 1, len(rest), len(rest) + 1, 256, 257, *LARGE, *TOO_LARGE):
                self.assertEqual(serpentgleam.pair(data, every[:count], allowance), rest[:allowance])

    def test_an_account_that_a_pair_raises(self):
        data = bytes_of(WHOLE_REAIS)
        self.assertEqual([serpentgleam.amount_so_far(data, serpentgleam.pair(data, (), count)) for count in (0, 1)],
                         [107, 207])

    def test_no_positions(self):
        for data in without_positions():
            self.assertEqual((serpentgleam.pair(data, (), 8), serpentgleam.amount_so_far(data, ())), ((), 0))
            self.assertEqual(serpentgleam.pair_or_refusal(data, [Pair(0, 0, 0, 0)], 8), NOT_FIRST)
            self.assertEqual(serpentgleam.amount_so_far_or_refusal(data, [Pair(0, 0, 0, 0)]), NOT_FIRST)


class Lists(unittest.TestCase):
    def setUp(self):
        self.data = bytes_of(INSTALMENTS)
        self.pairs = serpentgleam.margin(self.data).pairs
        self.least = 2 * len(account_of(self.data).positions)  # entries of a list that is long enough

    def check_refused(self, data, numbers, room, count, refusal):
        """Both calls are refused so, and every entry keeps its content."""
        lent = Lent(numbers, room)
        before = lent.numbers.tobytes()
        for allowance in (0, 1, 8, *LARGE):
            self.assertEqual(lent.pair(data, count, allowance), (*refusal, 0))
        self.assertEqual(lent.amount(data, count), (*refusal, 0))
        self.assertEqual(lent.numbers.tobytes(), before)

    def test_what_is_written(self):
        """The entries of the pairs that a call makes, and no other, whatever they have."""
        for room in (self.least, self.least + 1, 256, library.MOST_LINES):
            lent, count = Lent([], room), 0
            for allowance in (0, 8, 0, 7, 3, 2 ** 64 - 1, 1):
                expected = lent.numbers[:]
                made = min(allowance, len(self.pairs) - count)
                numbers = lines_of(self.pairs[count:count + made])
                start = count * library.LINE_NUMBERS
                expected[start:start + len(numbers)] = array.array('Q', numbers)
                self.assertEqual(lent.pair(self.data, count, allowance), (0, 0, made))
                self.assertEqual(lent.numbers, expected)
                count += made
                self.assertEqual(lent.amount(self.data, count), (0, 0, amount_after(self.data, count)))
                self.assertEqual(lent.numbers, expected)
            self.assertEqual(count, len(self.pairs))

    def test_with_fewer_lines_than_the_list_has(self):
        """Lines after the first count are not looked at, and are written over."""
        lent = Lent(lines_of(self.pairs), 256)
        lent.numbers[3 * library.LINE_NUMBERS:] = array.array('Q', [MARK] * (253 + 2) * library.LINE_NUMBERS)
        self.assertEqual(lent.amount(self.data, 2), (0, 0, amount_after(self.data, 2)))
        self.assertEqual(lent.pair(self.data, 2, 2), (0, 0, 2))
        self.assertEqual(lent.numbers[:4 * library.LINE_NUMBERS].tolist(), lines_of(self.pairs[:4]))
        self.assertEqual(set(lent.numbers[4 * library.LINE_NUMBERS:]), {MARK})

    def test_each_number_of_each_line(self):
        for at, changed in one_number_changed(lines_of(self.pairs)):
            before = at // library.LINE_NUMBERS
            self.check_refused(self.data, changed, 256, len(self.pairs), NOT_FIRST)
            self.check_refused(self.data, changed, 256, before + 1, NOT_FIRST)
            self.assertEqual(Lent(changed, 256).amount(self.data, before), (0, 0, amount_after(self.data, before)))

    def test_lines_in_another_order(self):
        for first, second in ((0, 1), (0, 19), (7, 8)):
            pairs = list(self.pairs)
            pairs[first], pairs[second] = pairs[second], pairs[first]
            self.check_refused(self.data, lines_of(pairs), 256, len(pairs), NOT_FIRST)
        self.check_refused(self.data, lines_of(self.pairs[1:]), 256, 19, NOT_FIRST)

    def test_counts_above_the_pairs(self):
        for room in (self.least, 256):
            for count in (len(self.pairs) + 1, room, room + 1, 257, *(large + 20 for large in LARGE[:-1]), *LARGE):
                self.check_refused(self.data, lines_of(self.pairs), room, count, NOT_FIRST)

    def test_left_lines_are_no_pairs(self):
        """The list of the margin, with its left line counted."""
        lent = engine.Lent()
        result = library.calls().margin(self.data, len(self.data), lent.address, library.MOST_LINES)
        self.assertEqual(result.lines, len(self.pairs) + 1)
        numbers = lent.numbers[:result.lines * library.LINE_NUMBERS].tolist()
        self.check_refused(self.data, numbers, 256, result.lines, NOT_FIRST)
        kept = Lent(numbers, 256)
        self.assertEqual(kept.pair(self.data, len(self.pairs), 8), (0, 0, 0))
        self.assertEqual(kept.amount(self.data, len(self.pairs)), (0, 0, result.total))

    def test_a_list_that_is_too_short(self):
        """12 comes before 18, and the list needs twice as many entries as there are positions."""
        for room in (0, 1, len(self.pairs), self.least // 2, self.least - 1):
            numbers = lines_of(self.pairs[:room])
            for count in (0, 1, len(self.pairs), len(self.pairs) + 1, *LARGE):
                self.check_refused(self.data, numbers, room, count, TOO_SHORT)

    def test_the_file_first(self):
        """The reading's refusal comes before 12 and 18."""
        for data, answer in VECTORS:
            if answer.startswith('refused'):
                refusal = Refusal(*map(int, answer.split()[1:]))
                for room, count in ((256, 0), (0, 0), (256, 1), (0, 2 ** 64 - 1)):
                    self.check_refused(data, [], room, count, refusal)

    def test_no_positions(self):
        for data in without_positions():
            for room in (0, 1, 256):
                lent = Lent([], room)
                before = lent.numbers.tobytes()
                for allowance in (0, 8, *LARGE):
                    self.assertEqual(lent.pair(data, 0, allowance), (0, 0, 0))
                self.assertEqual(lent.amount(data, 0), (0, 0, 0))
                self.assertEqual(lent.numbers.tobytes(), before)
                for count in (1, 256, *LARGE):
                    self.check_refused(data, [], room, count, NOT_FIRST)

    def test_no_list_and_no_bytes(self):
        calls = library.instalment_calls()
        for data, count, refusal in ((without_positions()[0], 0, 0), (without_positions()[0], 1, 18),
                                     (self.data, 0, 12), (None, 0, 1)):
            for answer in (calls.pair(data, len(data or b''), None, 0, count, 8),
                           calls.amount_so_far(data, len(data or b''), None, 0, count)):
                self.assertEqual((answer.refusal, answer.row, answer.value), (refusal, 0, 0))

    def test_the_file_keeps_its_bytes(self):
        lent = ctypes.create_string_buffer(self.data, len(self.data))
        calls, lines = library.instalment_calls(), library.list_of_lines()
        for call, numbers in ((calls.pair, (0, 8)), (calls.amount_so_far, (8,))):
            self.assertEqual(call(lent, len(self.data), lines, library.MOST_LINES, *numbers).refusal, 0)
            self.assertEqual(lent.raw, self.data)


class Module(unittest.TestCase):
    def check(self, data, pairs, refusal):
        self.assertEqual(serpentgleam.pair_or_refusal(data, pairs, 8), refusal)
        self.assertEqual(serpentgleam.amount_so_far_or_refusal(data, pairs), refusal)
        for call, words in ((serpentgleam.pair, (8,)), (serpentgleam.amount_so_far, ())):
            with self.assertRaises(Refused) as raised:
                call(data, pairs, *words)
            self.assertEqual((raised.exception.refusal, raised.exception.reason),
                             (refusal, serpentgleam.REASONS[refusal.number]))

    def test_pairs_that_are_not_the_first(self):
        data = bytes_of(DOCUMENT)
        first, second = serpentgleam.margin(data).pairs
        for pairs in ([second], [second, first], [first, first], [first, second, second], [first] * 256, [first] * 257,
                      [first] * 1000):
            self.check(data, pairs, NOT_FIRST)
        for place, other in itertools.product(range(4), (7, 2 ** 64 - 1, *TOO_LARGE)):
            self.check(data, [Pair(*first[:place], other, *first[place + 1:])], NOT_FIRST)

    def test_the_file_first(self):
        for pairs in ((), [Pair(0, 0, 0, 0)], [Pair(0, 0, 0, 0)] * 300, [Pair(10 ** 30, 0, 0, 0)]):
            self.check(bytes_of(WRONG_SIDE), pairs, Refusal(11, 2))
            self.check(b'', pairs, Refusal(1, 0))
            self.check(bytes(65_537), pairs, Refusal(1, 0))

    def test_what_is_handed_over(self):
        before = bytes_of(INSTALMENTS)
        every = serpentgleam.margin(before).pairs
        for like in (before, bytearray(before), memoryview(bytearray(before)), memoryview(b'x' + before)[1:]):
            for pairs in (every[:3], list(every[:3]), [tuple(pair) for pair in every[:3]]):
                kept = list(pairs)
                made = serpentgleam.pair(like, pairs, 2)
                self.assertEqual((type(made), made), (tuple, every[3:5]))
                self.assertEqual(serpentgleam.amount_so_far(like, pairs), amount_after(before, 3))
                self.assertEqual((bytes(like), list(pairs)), (before, kept))

    def test_names(self):
        data = bytes_of(DOCUMENT)
        pairs = serpentgleam.pair(data=data, pairs=(), allowance=1)
        self.assertEqual(serpentgleam.amount_so_far(data=data, pairs=pairs), 17_800)

    def test_what_is_no_number_from_0_on(self):
        data = bytes_of(DOCUMENT)
        for number in BELOW_0:
            self.assertRaisesRegex(ValueError, '^an allowance is a number from 0 on: -', serpentgleam.pair, data, (),
                                   number)
            for call in (serpentgleam.amount_so_far, serpentgleam.amount_so_far_or_refusal):
                self.assertRaisesRegex(ValueError, '^what a pair has is a number from 0 on: -', call, data,
                                       [Pair(0, 2, number, 0)])
        for other in (1.0, None, '1', [1]):
            self.assertRaises(TypeError, serpentgleam.pair, data, (), other)
            self.assertRaises(TypeError, serpentgleam.pair, data, [Pair(0, 2, 3, other)], 1)
        for other in ('text', None, 7, [1, 2]):
            self.assertRaises(TypeError, serpentgleam.pair, other, (), 1)
            self.assertRaises(TypeError, serpentgleam.amount_so_far, other, ())
        for other in (None, 7, (7,)):
            self.assertRaises(TypeError, serpentgleam.amount_so_far, data, other)

    def test_threads(self):
        asked = [(data, pairs[:len(pairs) // 2]) for data in ACCEPTED[:300]
                 for pairs in [serpentgleam.margin(data).pairs]]
        with concurrent.futures.ThreadPoolExecutor(8) as threads:
            together = list(threads.map(lambda one: serpentgleam.pair(*one, 2 ** 64 - 1), asked))
        self.assertEqual([pairs + made for (_, pairs), made in zip(asked, together, strict=True)],
                         [serpentgleam.margin(data).pairs for data, _ in asked])


class EarlierLibrary(unittest.TestCase):
    """A library before version 0.7.0, which has no calls for instalments."""

    def test_it_has_margins_and_no_instalments(self):
        earlier_library(self, 'pair', 'amount_so_far', 'take_apart')
        data = bytes_of(DOCUMENT)
        self.assertEqual(serpentgleam.margin(data).total, 10_800)
        for call, words in ((serpentgleam.pair, (8,)), (serpentgleam.amount_so_far, ())):
            self.assertRaisesRegex(NotFound, 'of an earlier version: undefined symbol: serpentgleam_pair', call, data,
                                   (), *words)


if __name__ == '__main__':
    unittest.main()
