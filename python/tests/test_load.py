"""Accounts of a load: the library's call and the module against the generator of document 02 and the reference's list,
what the call writes to its buffer, and each refusal.
"""
import concurrent.futures
import ctypes
import itertools
import random
import unittest

from drawn_loads import (ABOVE_64_BITS, F3, MODULUS, MOST_POSITIONS, MOST_SEED, POSITIONS, SEEDS, Generator, load_of,
                         size)
from support import DOCUMENT, LOAD, bytes_of, earlier_library

import serpentgleam
from serpentgleam import Margin, NotFound, Refusal, Refused, library
from serpentgleam.layout import account_of
from serpentgleam.text import check, file_from_text

REFUSAL = Refusal(20, 0)
EDGES = tuple(itertools.product((1, MOST_SEED), (1, MOST_POSITIONS)))
FENCE = b'\xa5' * 64


def called(seed, p, before):
    """What the library's call answers, and the buffer after it, which held these bytes before; some stand around it."""
    lent = ctypes.create_string_buffer(FENCE + before + FENCE, len(before) + 2 * len(FENCE))
    answer = library.load_call()(seed, p, ctypes.addressof(lent) + len(FENCE), len(before))
    if lent.raw[:len(FENCE)] != FENCE or lent.raw[-len(FENCE):] != FENCE:
        raise AssertionError('bytes outside the buffer are written')
    return (answer.refusal, answer.row, answer.value), lent.raw[len(FENCE):-len(FENCE)]


def listed():
    """Seed, positions and room of each case of the reference's list, the answer, and the buffer after the call, which
    held 165 in every byte before. The program load_list writes the list too.
    """
    rest = bytes_of('crates', 'load_list', 'stdout')
    while rest:
        line, rest = rest.split(b'\n', 1)
        seed, p, room, word, *numbers = line.decode().split()
        answer = (0, 0, *map(int, numbers)) if word == 'made' else (*map(int, numbers), 0)
        yield int(seed), int(p), int(room), answer, rest[:int(room)]
        rest = rest[int(room) + 1:]


class Generators(unittest.TestCase):
    """The tests' own generator."""

    def test_known_states(self):
        """The first states, and the 10,000th after seed 1, which the C++ standard has for std::minstd_rand."""
        generator, states = Generator(1), []
        for _ in range(10_000):
            generator.draw(1)
            states.append(generator.state)
        self.assertEqual(states[:3] + states[-1:], [48_271, 182_605_794, 1_291_394_886, 399_268_537])

    def test_the_largest_seed(self):
        """It is 0 - 1: its states and those of seed 1 add up to the modulus."""
        one, other = Generator(1), Generator(MOST_SEED)
        for _ in range(1000):
            one.draw(1)
            other.draw(1)
            self.assertEqual(one.state + other.state, MODULUS)


class Files(unittest.TestCase):
    def check(self, seed, p):
        data = serpentgleam.load(seed, p)
        self.assertEqual(data, load_of(seed, p), (seed, p))
        self.assertEqual(len(data), size(p))
        self.assertIsInstance(serpentgleam.margin_or_refusal(data), Margin)

    def test_edges(self):
        for seed, p in EDGES:
            self.check(seed, p)

    def test_example(self):
        self.assertEqual(serpentgleam.load(99, 8), bytes_of(LOAD))
        self.assertEqual(serpentgleam.margin(bytes_of(LOAD)).total, 6_040_300)

    def test_worked_out(self):
        """Seed 1: the first states are 48271, 182605794, 1291394886, 1914720637 and 2078669041."""
        text = ('series put PV=4271 fa=1.105794 fb=0.892304 f3=0.05 M=8\n'
                'written Q=6 PE=6692 up-and-in=5103 REB=71 european\n'
                'written Q=50 PE=5914 down-and-in=1300 REB=69 european\n')
        self.assertEqual(serpentgleam.load(1, 2), file_from_text(text.encode()))

    def test_seeds(self):
        chance = random.Random(10)
        near = (2, 3, 99, 16_807, 48_271, 2 ** 16, 2 ** 30, MOST_SEED - 1, MOST_SEED // 48_271)
        for seed in (*near, *(chance.randint(1, MOST_SEED) for _ in range(1000))):
            self.check(seed, chance.choice((1, 2, 8, 33, 100, 255, MOST_POSITIONS)))

    def test_every_number_of_positions(self):
        for p in range(1, MOST_POSITIONS + 1):
            self.check(81, p)

    def test_more_positions_begin_with_the_same_ones(self):
        whole = serpentgleam.load(2003, MOST_POSITIONS)
        for p in (1, 2, 100, 255):
            self.assertEqual(serpentgleam.load(2003, p)[:-12], whole[:24 + 32 * p])

    def test_same_bytes_every_time(self):
        for seed, p in EDGES:
            self.assertEqual({serpentgleam.load(seed, p) for _ in range(20)}, {load_of(seed, p)})

    def test_no_fault(self):
        for seed in range(1, 201):
            self.assertEqual(check(serpentgleam.load(seed, 64), False), [])

    def test_limits(self):
        """What is drawn is in its range and every kind, side and type is met; what is not drawn is as it should be."""
        accounts = [account_of(serpentgleam.load(seed, MOST_POSITIONS)) for seed in range(1, 201)]
        series = [row for account in accounts for row in account.series]
        rows = [(one, row) for account, one in zip(accounts, series) for row in account.positions]
        self.assertEqual((len(series), {account.cover for account in accounts}), (len(accounts), {b''}))
        self.assertEqual(({row['type'] for row in series}, {row['f3'] for row in series}), ({0, 1}, {F3}))
        self.assertTrue(all(1000 <= row['PV'] < 10_000 and 1 <= row['M'] <= 10 for row in series))
        self.assertTrue(all(500_000 <= row['fb'] <= 1_000_000 <= row['fa'] < 1_500_000 for row in series))
        self.assertEqual({row['M'] for row in series}, set(range(1, 11)))
        self.assertEqual({(row['side'], row['kind']) for _, row in rows}, set(itertools.product(range(2), range(5))))
        self.assertEqual({row['Q'] for _, row in rows}, set(range(1, 101)))
        self.assertEqual({row['european'] for _, row in rows}, {4})
        for name in ('series', 'limiter', 'knocked-in', 'knocked-out', 'before-annex', 'other-flags', 'PB', 'premium',
                     'blocked'):
            self.assertEqual({row[name] for _, row in rows}, {0}, name)
        for one, row in rows:
            above = one['PV'] < row['barrier-price'] <= one['PV'] + 1000
            below = 1 <= row['barrier-price'] < one['PV']
            self.assertTrue(above if row['kind'] in (1, 3) else below if row['kind'] else row['barrier-price'] == 0)
            self.assertTrue(row['REB'] < (100 if row['kind'] else 1) and 1 <= row['PE'] <= 10_000)


class Reference(unittest.TestCase):
    def test_its_list(self):
        made = 0
        for seed, p, room, answer, after in listed():
            self.assertEqual(called(seed, p, b'\xa5' * room), (answer, after), (seed, p, room))
            if answer[0] == 0:
                self.assertEqual(load_of(seed, p) + b'\xa5' * (room - size(p)), after)
                made += 1
        self.assertGreater(made, 100)


class Buffers(unittest.TestCase):
    def test_bytes_after_the_file_stay(self):
        chance = random.Random(20)
        for seed, p in (*EDGES, (99, 8)):
            for more in (0, 1, 31, 32, 5000, 65_536):
                before = chance.randbytes(size(p) + more)
                self.assertEqual(called(seed, p, before), ((0, 0, size(p)), load_of(seed, p) + before[size(p):]))

    def test_whatever_was_there(self):
        for byte in (b'\0', b'\xff', b'\x5a'):
            self.assertEqual(called(99, 8, byte * 292)[1], load_of(99, 8))

    def test_too_short(self):
        for p in (1, 2, 8, 255, MOST_POSITIONS):
            for room in sorted({0, 1, 35, 36, 67, size(p - 1), size(p) - 32, size(p) - 12, size(p) - 1}):
                if room < size(p):
                    before = bytes(range(256)) * 33
                    self.assertEqual(called(1, p, before[:room]), ((20, 0, 0), before[:room]), (p, room))

    def test_no_buffer(self):
        for seed, p in ((1, 1), (0, 0), (MOST_SEED, MOST_POSITIONS)):
            answer = library.load_call()(seed, p, None, 0)
            self.assertEqual((answer.refusal, answer.row, answer.value), (20, 0, 0))

    def test_refused_and_untouched(self):
        before = random.Random(21).randbytes(65_536)  # long enough for positions above 256 too
        asked = [(seed, p) for seed in SEEDS for p in (1, 8, MOST_POSITIONS, *POSITIONS)]
        for seed, p in asked + [(seed, p) for seed in (1, MOST_SEED) for p in POSITIONS]:
            self.assertEqual(called(seed, p, before), ((20, 0, 0), before), (seed, p))


class Refusals(unittest.TestCase):
    def check(self, seed, p):
        self.assertEqual(serpentgleam.load_or_refusal(seed, p), REFUSAL, (seed, p))
        with self.assertRaises(Refused) as raised:
            serpentgleam.load(seed, p)
        self.assertEqual((raised.exception.refusal, raised.exception.reason), (REFUSAL, serpentgleam.REASONS[20]))

    def test_seeds(self):
        for seed in (*SEEDS, *ABOVE_64_BITS):
            for p in (1, 8, MOST_POSITIONS):
                self.check(seed, p)

    def test_positions(self):
        for p in (*POSITIONS, *ABOVE_64_BITS):
            for seed in (1, 99, MOST_SEED):
                self.check(seed, p)

    def test_both(self):
        for seed, p in itertools.product((0, MODULUS, 2 ** 64 + 1), (0, 257, 2 ** 64 + 1)):
            self.check(seed, p)


class Module(unittest.TestCase):
    def test_names(self):
        for answer in (serpentgleam.load(seed=99, p=8), serpentgleam.load_or_refusal(seed=99, p=8)):
            self.assertEqual((type(answer), answer), (bytes, load_of(99, 8)))

    def test_what_is_no_number_from_0_on(self):
        for call in (serpentgleam.load, serpentgleam.load_or_refusal):
            for number in (-1, -2 ** 31, -2 ** 64, 1 - 2 ** 64):
                self.assertRaisesRegex(ValueError, '^a seed is a number from 0 on: -', call, number, 8)
                self.assertRaisesRegex(ValueError, '^p is a number from 0 on: -', call, 99, number)
            for other in (1.0, None, '1', b'1', [1]):
                self.assertRaises(TypeError, call, other, 8)
                self.assertRaises(TypeError, call, 99, other)

    def test_threads(self):
        asked = [(seed, 1 + seed % MOST_POSITIONS) for seed in range(1, 401)]
        with concurrent.futures.ThreadPoolExecutor(8) as threads:
            together = list(threads.map(lambda one: serpentgleam.load(*one), asked))
        self.assertTrue(together == [load_of(*one) for one in asked])  # of long lists a difference takes long to show


class EarlierLibrary(unittest.TestCase):
    """A library before version 0.10.0, which has no call for a load."""

    def test_it_has_margins_and_no_load(self):
        earlier_library(self, 'load')
        self.assertEqual(serpentgleam.margin(bytes_of(DOCUMENT)).total, 10_800)
        self.assertRaisesRegex(NotFound, 'of an earlier version: undefined symbol: serpentgleam_load',
                               serpentgleam.load, 99, 8)


if __name__ == '__main__':
    unittest.main()
