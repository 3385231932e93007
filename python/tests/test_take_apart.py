"""Taking pairs apart: the library's call and the module, back from any number of pairs and on again; every entry of
the list, and each refusal in its order.
"""
import array
import concurrent.futures
import ctypes
import itertools
import random
import unittest

from lent_lists import (ACCEPTED, BELOW_0, LARGE, MARK, NOT_FIRST, TOO_LARGE, TOO_SHORT, Lent, amount_after,
                        lines_of, one_number_changed)
from support import (DOCUMENT, INSTALMENTS, VECTORS, WRONG_SIDE, bytes_of, earlier_library, long_account,
                     without_positions)

import serpentgleam
from serpentgleam import NotFound, Pair, Refusal, Refused, library
from serpentgleam.layout import account_of, file_of

ABOVE_COUNT = Refusal(19, 0)
KS = (0, 1, 8, 20, 21, 256, 257, *LARGE)


class Pairs(unittest.TestCase):
    def test_document(self):
        data = bytes_of(DOCUMENT)
        first, second = Pair(0, 2, 3, 0), Pair(0, 1, 4, 3_000)
        for k, left in ((0, (first, second)), (1, (first,)), (2, ())):
            self.assertEqual(serpentgleam.take_apart(data, (first, second), k), left)
        self.assertEqual(serpentgleam.take_apart(data, (first,), 1), ())
        self.assertEqual(serpentgleam.take_apart_or_refusal(data, (first,), 2), ABOVE_COUNT)

    def test_back_and_on_again(self):
        """After an allowance and as many taken apart: the former pairs, and then the same ones again."""
        chance, made_in_all = random.Random(8), 0
        for data in ACCEPTED:
            every = serpentgleam.margin(data).pairs
            for _ in range(3):
                former, allowance = every[:chance.randint(0, len(every))], chance.choice((0, 1, 2, 3, 8, 64, 2 ** 64))
                made = serpentgleam.pair(data, former, allowance)
                back = serpentgleam.take_apart(data, former + made, len(made))
                self.assertEqual(back, former)
                self.assertEqual(serpentgleam.pair(data, back, allowance), made)
                made_in_all += len(made)
        self.assertGreater(made_in_all, 1000)

    def test_every_count_and_k(self):
        data = bytes_of(INSTALMENTS)
        every = serpentgleam.margin(data).pairs
        for count, k in itertools.product(range(len(every) + 1), range(len(every) + 3)):
            left = serpentgleam.take_apart_or_refusal(data, every[:count], k)
            self.assertEqual(left, ABOVE_COUNT if k > count else every[:count - k])

    def test_one_at_a_time(self):
        data = long_account()
        pairs = every = serpentgleam.margin(data).pairs
        self.assertGreater(len(every), 100)
        while pairs:
            pairs = serpentgleam.take_apart(data, pairs, 1)
            self.assertEqual(pairs, every[:len(pairs)])
        self.assertEqual(serpentgleam.take_apart(data, every, len(every)), ())

    def test_a_sale(self):
        """Of a held row some contracts are sold: the pairs before the first that names it stay the first ones."""
        sales = 0
        for data in ACCEPTED:
            pairs, account = serpentgleam.margin(data).pairs, account_of(data)
            held = {pair.held: at for at, pair in reversed(list(enumerate(pairs)))}
            for row, before in held.items():
                contracts, blocked = account.positions[row]['Q'], account.positions[row]['blocked']
                if contracts > 1:
                    left = serpentgleam.take_apart(data, pairs, len(pairs) - before)
                    rows = [{**other, 'Q': max(contracts // 2, blocked)} if at == row else other
                            for at, other in enumerate(account.positions)]
                    after = file_of(account._replace(positions=rows))
                    self.assertEqual(left + serpentgleam.pair(after, left, 256), serpentgleam.margin(after).pairs)
                    sales += 1
        self.assertGreater(sales, 1000)


class Lists(unittest.TestCase):
    def setUp(self):
        self.data = bytes_of(INSTALMENTS)
        self.pairs = serpentgleam.margin(self.data).pairs
        self.least = 2 * len(account_of(self.data).positions)  # entries of a list that is long enough

    def check_refused(self, data, numbers, room, count, refusal, ks=KS):
        """The call is refused so, and every entry keeps its content."""
        lent = Lent(numbers, room)
        before = lent.numbers.tobytes()
        for k in ks:
            self.assertEqual(lent.take_apart(data, count, k), (*refusal, 0))
        self.assertEqual(lent.numbers.tobytes(), before)

    def test_what_is_written(self):
        """Zeros in the entries of the pairs taken apart, and in no other, whatever the others have."""
        for room in (self.least, self.least + 1, 256, library.MOST_LINES):
            lent, count = Lent(lines_of(self.pairs), room), len(self.pairs)
            for k in (0, 1, 0, 8, 3, 8):
                expected = lent.numbers[:]
                start, end = (count - k) * library.LINE_NUMBERS, count * library.LINE_NUMBERS
                expected[start:end] = array.array('Q', [0] * (end - start))
                self.assertEqual(lent.take_apart(self.data, count, k), (0, 0, count - k))
                self.assertEqual(lent.numbers, expected)
                count -= k
                self.assertEqual(lent.amount(self.data, count), (0, 0, amount_after(self.data, count)))
            self.assertEqual(count, 0)
            self.assertEqual(set(lent.numbers[len(self.pairs) * library.LINE_NUMBERS:]), {MARK})

    def test_with_fewer_lines_than_the_list_has(self):
        """Entries from the count on are not looked at and stay, lines of pairs and others."""
        for kept in (len(self.pairs), 12):
            lent = Lent(lines_of(self.pairs[:kept]), 256)
            after = lent.numbers[10 * library.LINE_NUMBERS:]
            self.assertEqual(lent.take_apart(self.data, 10, 4), (0, 0, 6))
            self.assertEqual(lent.numbers[:10 * library.LINE_NUMBERS].tolist(), lines_of(self.pairs[:6]) + [0] * 20)
            self.assertEqual(lent.numbers[10 * library.LINE_NUMBERS:], after)

    def test_back_and_on_again(self):
        """Zeros stand where the pairs were made, and not what was there before; pairing again writes the same list."""
        for count, allowance in itertools.product((0, 1, 8, 19, 20), (0, 1, 8, 2 ** 64 - 1)):
            lent = Lent(lines_of(self.pairs[:count]), 256)
            made = min(allowance, len(self.pairs) - count)
            zeros = lent.numbers[:]
            start, end = count * library.LINE_NUMBERS, (count + made) * library.LINE_NUMBERS
            zeros[start:end] = array.array('Q', [0] * (end - start))
            self.assertEqual(lent.pair(self.data, count, allowance), (0, 0, made))
            paired = lent.numbers[:]
            self.assertEqual(lent.take_apart(self.data, count + made, made), (0, 0, count))
            self.assertEqual(lent.numbers, zeros)
            self.assertEqual(lent.pair(self.data, count, allowance), (0, 0, made))
            self.assertEqual(lent.numbers, paired)

    def test_zeros_are_no_pairs(self):
        """The count of before is refused after a taking apart."""
        lent = Lent(lines_of(self.pairs), 256)
        self.assertEqual(lent.take_apart(self.data, 20, 1), (0, 0, 19))
        self.check_refused(self.data, lent.numbers, 256, 20, NOT_FIRST)

    def test_k_above_the_count(self):
        for count in (0, 1, 8, len(self.pairs)):
            self.check_refused(self.data, lines_of(self.pairs), 256, count, ABOVE_COUNT, (count + 1, *KS[4:]))
            lent = Lent(lines_of(self.pairs), self.least)
            self.assertEqual(lent.take_apart(self.data, count, count), (0, 0, 0))

    def test_each_number_of_each_line(self):
        """18 comes before 19."""
        for at, changed in one_number_changed(lines_of(self.pairs)):
            self.check_refused(self.data, changed, 256, len(self.pairs), NOT_FIRST)
            self.check_refused(self.data, changed, 256, at // library.LINE_NUMBERS + 1, NOT_FIRST)

    def test_counts_above_the_pairs(self):
        for room in (self.least, 256):
            for count in (len(self.pairs) + 1, room, room + 1, 257, *(large + 20 for large in LARGE[:-1]), *LARGE):
                self.check_refused(self.data, lines_of(self.pairs), room, count, NOT_FIRST)

    def test_a_list_that_is_too_short(self):
        """12 comes before 18 and 19."""
        for room in (0, 1, len(self.pairs), self.least // 2, self.least - 1):
            for count in (0, 1, len(self.pairs), len(self.pairs) + 1, *LARGE):
                self.check_refused(self.data, lines_of(self.pairs[:room]), room, count, TOO_SHORT)

    def test_the_file_first(self):
        """The reading's refusal comes before 12, 18 and 19."""
        for data, answer in VECTORS:
            if answer.startswith('refused'):
                refusal = Refusal(*map(int, answer.split()[1:]))
                for room, count in ((256, 0), (0, 0), (256, 1), (0, 2 ** 64 - 1)):
                    self.check_refused(data, [], room, count, refusal, (0, 1, 2 ** 64 - 1))

    def test_no_positions(self):
        for data, room in itertools.product(without_positions(), (0, 1, 256)):
            lent = Lent([], room)
            before = lent.numbers.tobytes()
            self.assertEqual(lent.take_apart(data, 0, 0), (0, 0, 0))
            self.assertEqual(lent.numbers.tobytes(), before)
            self.check_refused(data, [], room, 0, ABOVE_COUNT, KS[1:])
            for count in (1, 256, *LARGE):
                self.check_refused(data, [], room, count, NOT_FIRST)

    def test_no_list_and_no_bytes(self):
        for data, count, k, refusal in ((without_positions()[0], 0, 0, 0), (without_positions()[0], 0, 1, 19),
                                        (without_positions()[0], 1, 2, 18), (self.data, 0, 1, 12), (None, 0, 1, 1)):
            answer = library.take_apart_call()(data, len(data or b''), None, 0, count, k)
            self.assertEqual((answer.refusal, answer.row, answer.value), (refusal, 0, 0))

    def test_the_file_keeps_its_bytes(self):
        file, lent = ctypes.create_string_buffer(self.data, len(self.data)), Lent(lines_of(self.pairs), 256)
        for count, k, refusal in ((20, 8, 0), (12, 13, 19), (20, 1, 18)):
            self.assertEqual(lent.take_apart(file, count, k)[0], refusal)
            self.assertEqual(file.raw, self.data)


class Module(unittest.TestCase):
    def check(self, data, pairs, refusal, *ks):
        for k in ks:
            self.assertEqual(serpentgleam.take_apart_or_refusal(data, pairs, k), refusal)
            with self.assertRaises(Refused) as raised:
                serpentgleam.take_apart(data, pairs, k)
            self.assertEqual((raised.exception.refusal, raised.exception.reason),
                             (refusal, serpentgleam.REASONS[refusal.number]))

    def test_more_than_there_are(self):
        data = bytes_of(DOCUMENT)
        pairs = serpentgleam.margin(data).pairs
        for count in range(3):
            self.check(data, pairs[:count], ABOVE_COUNT, count + 1, 256, 257, *LARGE, *TOO_LARGE)
        self.assertEqual(serpentgleam.REASONS[19], 'more pairs to take apart than there are in the list')

    def test_pairs_that_are_not_the_first(self):
        data = bytes_of(DOCUMENT)
        first, second = serpentgleam.margin(data).pairs
        for pairs in ([second], [second, first], [first, first], [first, second, second], [first] * 256, [first] * 257,
                      [first] * 1000):
            self.check(data, pairs, NOT_FIRST, 0, 1, len(pairs), len(pairs) + 1, *TOO_LARGE)
        for place, other in itertools.product(range(4), (7, 2 ** 64 - 1, *TOO_LARGE)):
            self.check(data, [Pair(*first[:place], other, *first[place + 1:])], NOT_FIRST, 0, 1, 2)

    def test_the_file_first(self):
        for pairs in ((), [Pair(0, 0, 0, 0)], [Pair(0, 0, 0, 0)] * 300):
            self.check(bytes_of(WRONG_SIDE), pairs, Refusal(11, 2), 0, 1, *TOO_LARGE)
            self.check(b'', pairs, Refusal(1, 0), 0, 1, *TOO_LARGE)

    def test_what_is_handed_over(self):
        before = bytes_of(INSTALMENTS)
        every = serpentgleam.margin(before).pairs
        for like in (before, bytearray(before), memoryview(bytearray(before)), memoryview(b'x' + before)[1:]):
            for pairs in (every[:5], list(every[:5]), [tuple(pair) for pair in every[:5]]):
                kept = list(pairs)
                left = serpentgleam.take_apart(like, pairs, 2)
                self.assertEqual((type(left), left, type(left[0])), (tuple, every[:3], Pair))
                self.assertEqual((bytes(like), list(pairs)), (before, kept))

    def test_names(self):
        data = bytes_of(DOCUMENT)
        self.assertEqual(serpentgleam.take_apart(data=data, pairs=serpentgleam.margin(data).pairs, k=2), ())

    def test_what_is_no_number_from_0_on(self):
        data = bytes_of(DOCUMENT)
        for call, number in itertools.product((serpentgleam.take_apart, serpentgleam.take_apart_or_refusal), BELOW_0):
            self.assertRaisesRegex(ValueError, '^how many pairs to take apart is a number from 0 on: -', call, data, (),
                                   number)
            self.assertRaisesRegex(ValueError, '^what a pair has is a number from 0 on: -', call, data,
                                   [Pair(0, 2, number, 0)], 1)
        for other in (1.0, None, '1', [1]):
            self.assertRaises(TypeError, serpentgleam.take_apart, data, (), other)
            self.assertRaises(TypeError, serpentgleam.take_apart, data, [Pair(0, 2, 3, other)], 1)
        for other in ('text', None, 7, [1, 2]):
            self.assertRaises(TypeError, serpentgleam.take_apart, other, (), 0)
        for other in (None, 7, (7,)):
            self.assertRaises(TypeError, serpentgleam.take_apart, data, other, 0)

    def test_threads(self):
        asked = [(data, pairs, len(pairs) // 2) for data in ACCEPTED[:300]
                 for pairs in [serpentgleam.margin(data).pairs]]
        with concurrent.futures.ThreadPoolExecutor(8) as threads:
            together = list(threads.map(lambda one: serpentgleam.take_apart(*one), asked))
        self.assertEqual(together, [pairs[:len(pairs) - k] for _, pairs, k in asked])


class EarlierLibrary(unittest.TestCase):
    """A library before version 0.8.0, which has no call that takes apart."""

    def test_it_pairs_and_does_not_take_apart(self):
        earlier_library(self, 'take_apart')
        data = bytes_of(DOCUMENT)
        pairs = serpentgleam.pair(data, (), 8)
        self.assertEqual(serpentgleam.amount_so_far(data, pairs), 10_800)
        for call in (serpentgleam.take_apart, serpentgleam.take_apart_or_refusal):
            self.assertRaisesRegex(NotFound, 'of an earlier version: undefined symbol: serpentgleam_take_apart', call,
                                   data, pairs, 1)


if __name__ == '__main__':
    unittest.main()
