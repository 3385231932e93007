"""The factors of a series from a code and the days, worked out by hand from document 02 [2] and source document 004."""
from functools import lru_cache
from typing import NamedTuple

MOST_DAYS, YEAR = 1_800, 360
ONE = 10 ** 8             # of a rate, a daily factor or a growth, which are whole 10^-8
MILLIONTHS = 10 ** 6      # of a root, fa and fb
PARTS = 10 ** 4           # of the circular's numbers


class Code(NamedTuple):
    """A row of the circular's table: i/100, F1, F2 and F4 in whole 10^-4."""
    number: int
    name: str
    i: int
    F1: int
    F2: int
    F4: int

    @property
    def ga(self):
        """The high base rate."""
        return ONE + self.i * (PARTS + self.F1)

    @property
    def gb(self):
        """The low base rate."""
        return ONE + self.i * (PARTS - self.F1)


CODES = {code.name: code for code in (  # as the circular prints them: 21,00 and 12,00% and 11,00% and 10,00% for FCI
    Code(0, 'FCI', 21_00, 12_00, 11_00, 10_00),
    Code(1, 'FPI', 21_00, 24_00, 22_00, 10_00),
    Code(2, 'OFC', 16_00, 15_00, 12_00, 15_00),
    Code(3, 'OFV', 16_00, 30_00, 24_00, 15_00))}


def least(holds, low, high):
    """The least whole number from low to high of which `holds` is true; it must be true of each one after it too."""
    while low < high:
        middle = (low + high) // 2
        low, high = (low, middle) if holds(middle) else (middle + 1, high)
    return low


def root(n):
    """S(n): the least whole number with S × S × 360 ≥ n × 10^12."""
    return least(lambda number: number * number * YEAR >= n * MILLIONTHS ** 2, 0, 3 * MILLIONTHS)


def times(number, daily):
    """A multiplication by a daily factor, rounded down."""
    return number * daily // ONE


def times_up(number, daily):
    """The same, rounded up."""
    return -(-number * daily // ONE)


def grown(daily, days, multiplied):
    """So many multiplications from 10^8."""
    number = ONE
    for _ in range(days):
        number = multiplied(number, daily)
    return number


@lru_cache(maxsize=None)
def high_daily(code):
    """The least daily factor for which 360 multiplications, each rounded down, reach ga."""
    return least(lambda daily: grown(daily, YEAR, times) >= code.ga, ONE, 2 * ONE)


@lru_cache(maxsize=None)
def low_daily(code):
    """The greatest daily factor for which 360 multiplications, each rounded up, stay at or below gb."""
    return least(lambda daily: grown(daily, YEAR, times_up) > code.gb, ONE, 2 * ONE) - 1


class Working(NamedTuple):
    """The factors of a code and n days, and what they are made of."""
    root: int
    high: int      # growth
    low: int
    exact_fa: int  # before its rounding, in 10^-18
    exact_fb: int
    fa: int
    fb: int


EXACT = ONE * PARTS * MILLIONTHS    # the scale of growth × F2 × S, 10^-18
MILLIONTH = EXACT // MILLIONTHS     # in it


@lru_cache(maxsize=None)
def worked_out(code, n):
    """The factors, each rounded once."""
    s, high, low = root(n), grown(high_daily(code), n, times_up), grown(low_daily(code), n, times)
    added = code.F4 * (EXACT // PARTS)
    exact_fa = high * (PARTS * MILLIONTHS + code.F2 * s) + added
    exact_fb = low * (PARTS * MILLIONTHS - code.F2 * s) - added
    return Working(s, high, low, exact_fa, exact_fb, -(-exact_fa // MILLIONTH), max(0, exact_fb // MILLIONTH))


def answer_of(code, n):
    """What the product should print for a code and n days."""
    if n > MOST_DAYS:
        return 'refused 14 0'
    working = worked_out(code, n)
    return f'{working.fa} {working.fb}'


def growth_bounds(code, n):
    """Whether (high growth)^360 ≥ ga^n and (low growth)^360 ≤ gb^n, each side a product of as many numbers in 10^-8."""
    working = worked_out(code, n)
    return (working.high ** YEAR * ONE ** n >= code.ga ** n * ONE ** YEAR,
            working.low ** YEAR * ONE ** n <= code.gb ** n * ONE ** YEAR)
