"""Accounts of a load, made from document 02 [10] and the layout of document 01 alone, for the tests of loads."""
import struct

MULTIPLIER, MODULUS = 48_271, 2_147_483_647
MOST_SEED, MOST_POSITIONS = MODULUS - 1, 256
UP = (1, 3)    # kinds of barriers above PV
EUROPEAN = 4   # the flag
F3 = 50_000
SEEDS = (0, MODULUS, MODULUS + 1, 2 ** 32, 2 ** 32 + 1, 2 ** 63, 2 ** 64 - 1)  # that are not in their range
POSITIONS = (0, 257, 512, 2 ** 16, 2 ** 16 + 1, 2 ** 32, 2 ** 32 + 1, 2 ** 59, 2 ** 59 + 1, 2 ** 64 - 1)
ABOVE_64_BITS = (2 ** 64, 2 ** 64 + 1, 2 ** 64 + 8, 10 ** 30)  # the first two are 0 and 1 in 64 bits


def size(p):
    """The bytes of a load of p positions."""
    return 36 + 32 * p


class Generator:
    """The generator: its state begins with the seed."""

    def __init__(self, seed):
        self.state = seed

    def draw(self, k):
        """The next state mod k."""
        self.state = MULTIPLIER * self.state % MODULUS
        return self.state % k


def series_of(generator):
    """PV of the series and its row, the draws in document 02's order."""
    price = 1000 + generator.draw(9000)
    high = 1_000_000 + generator.draw(500_000)
    low = 500_000 + generator.draw(500_001)
    worth = 1 + generator.draw(10)
    kind = generator.draw(2)
    return price, struct.pack('<IIIIIB3x', price, high, low, F3, worth, kind)


def position_of(generator, price):
    """A position row, the draws in document 02's order; kind 0 draws neither barrier nor rebate."""
    side = generator.draw(2)
    kind = generator.draw(5)
    contracts = 1 + generator.draw(100)
    strike = 1 + generator.draw(10_000)
    barrier = rebate = 0
    if kind:
        barrier = price + 1 + generator.draw(1000) if kind in UP else 1 + generator.draw(price - 1)
        rebate = generator.draw(100)
    return struct.pack('<HBBB3xIIIIII', 0, side, kind, EUROPEAN, contracts, strike, 0, barrier, rebate, 0)


def load_of(seed, p):
    """The account file of a seed and p positions, both in their ranges."""
    generator = Generator(seed)
    price, series = series_of(generator)
    positions = [position_of(generator, price) for _ in range(p)]
    return b''.join([series, *positions, struct.pack('<HHI4x', 1, p, 12 + 24 + 32 * p)])
