"""Accounts of a load, worked out by hand from document 02 [10]."""
from typing import NamedTuple

from .terms import shown

MULTIPLIER, MODULUS = 48_271, 2_147_483_647
MOST_SEED, MOST_POSITIONS = MODULUS - 1, 256
SIDES = ('held', 'written')
TYPES = ('call', 'put')
KINDS = ('none', 'up-and-in', 'down-and-in', 'up-and-out', 'down-and-out')


class Draw(NamedTuple):
    """A draw: what it gives, the state after it, k, and the number to which its remainder is added."""
    what: str
    state: int
    k: int
    base: int

    @property
    def remainder(self):
        """draw(k)."""
        return self.state % self.k

    @property
    def value(self):
        """What is drawn."""
        return self.base + self.remainder


class Generator:
    """The state, which begins with the seed, and the draws so far."""

    def __init__(self, seed):
        self.state, self.draws = seed, []

    def draw(self, what, k, base=0):
        """The value of the next draw."""
        self.state = MULTIPLIER * self.state % MODULUS
        self.draws.append(Draw(what, self.state, k, base))
        return self.draws[-1].value


class Drawn(NamedTuple):
    """A row of a load: its line in the text, and its draws."""
    line: str
    draws: list


def decimal(millionths):
    """A factor as the text has it, always with a point."""
    text = shown(millionths)
    return text if '.' in text else text + '.0'


def series_drawn(generator):
    """The series row, and its PV."""
    PV = generator.draw('PV', 9_000, 1_000)
    fa = generator.draw('fa', 500_000, 1_000_000)
    fb = generator.draw('fb', 500_001, 500_000)
    M = generator.draw('M', 10, 1)
    kind = TYPES[generator.draw('type', 2)]
    line = f'series {kind} PV={PV} fa={decimal(fa)} fb={decimal(fb)} f3=0.05 M={M}'
    return Drawn(line, list(generator.draws)), PV


def position_drawn(generator, PV):
    """A position row."""
    before = len(generator.draws)
    side = SIDES[generator.draw('side', 2)]
    kind = KINDS[generator.draw('kind', 5)]
    line = f'{side} series=0 Q={generator.draw("Q", 100, 1)} PE={generator.draw("PE", 10_000, 1)}'
    if kind != 'none':
        up = kind.startswith('up')
        line += f' {kind}={generator.draw("barrier", 1_000, PV + 1) if up else generator.draw("barrier", PV - 1, 1)}'
        REB = generator.draw('REB', 100)
        line += f' REB={REB}' if REB else ''
    return Drawn(line + ' european', generator.draws[before:])


def rows_drawn(seed, p):
    """The series row and then the position rows of a load."""
    generator = Generator(seed)
    series, PV = series_drawn(generator)
    return [series, *(position_drawn(generator, PV) for _ in range(p))]


def size(p):
    """The bytes of the file: a series row, p position rows and the trailer."""
    return 24 + 32 * p + 12


def refused(seed, p, room):
    """Whether a load is refused with 20."""
    return not 1 <= seed <= MOST_SEED or not 1 <= p <= MOST_POSITIONS or room < size(p)


def text_of(seed, p):
    """The account's text, of a seed and p that are in their ranges."""
    return ''.join(row.line + '\n' for row in rows_drawn(seed, p))
