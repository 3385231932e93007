"""An example's text as numbers. It is read here too, so that the hand arithmetic rests on nothing of the product."""
from decimal import Decimal
from typing import NamedTuple, Optional

MILLION = 1_000_000
SERIES_TEXT = {kind: f'series {kind} PV=3000 fa=1.2 fb=0.8 f3=0.05 M=5' for kind in ('call', 'put')}
BARRIERS = {'up-and-in': 'IU', 'down-and-in': 'ID', 'up-and-out': 'OU', 'down-and-out': 'OD'}


class Series(NamedTuple):
    """A series row. Prices in ticks, factors in millionths, M in centavos per tick per contract."""
    type: str
    PV: int
    fa: int
    fb: int
    f3: int
    M: int

    @property
    def H(self):
        """The high price, in fine units: ticks times millionths."""
        return self.PV * self.fa

    @property
    def L(self):
        """The low price, in fine units."""
        return self.PV * self.fb

    @property
    def MM(self):
        """The minimum margin, in fine units."""
        return self.PV * self.f3


class Row(NamedTuple):
    """A position row. Prices in ticks; kind is None without a barrier, PB is None without a limiter. Of a written row
    none are blocked.
    """
    number: int
    series: Series
    side: str
    Q: int
    PE: int
    PB: Optional[int]
    kind: Optional[str]
    barrier: int
    REB: int
    premium: int
    blocked: int
    knocked_in: bool
    knocked_out: bool
    may_pair: bool


def fine(ticks):
    """Ticks in fine units."""
    return ticks * MILLION


def shown(amount, scale=MILLION):
    """A number of fine units as ticks, exact, without zeros at the end."""
    whole, rest = divmod(abs(amount), scale)
    places = len(str(scale)) - 1
    tail = f'.{rest:0{places}d}'.rstrip('0') if rest else ''
    return f'{"−" if amount < 0 else ""}{whole}{tail}'


def values_of(words):
    """The words with a value, by their names."""
    return dict(word.split('=') for word in words if '=' in word)


def series_from(words):
    """The series that the words after `series` describe."""
    values = values_of(words)
    factors = [int(Decimal(values[name]) * MILLION) for name in ('fa', 'fb', 'f3')]
    return Series(words[0], int(values['PV']), *factors, int(values['M']))


def row_from(number, words, series_rows):
    """The position that a line's words describe."""
    values = {name: int(value) for name, value in values_of(words).items()}
    kind = next((name for name in BARRIERS if name in values), None)
    series, may_pair = series_rows[values.get('series', 0)], 'european' in words or 'before-annex' in words
    return Row(number, series, words[0], values['Q'], values['PE'], values.get('PB'), kind, values.get(kind, 0),
               values.get('REB', 0), values.get('premium', 0), values.get('blocked', 0), 'knocked-in' in words,
               'knocked-out' in words, may_pair)


def bare_lines(text):
    """The lines of a text without comments; empty ones are left out."""
    return [line for line in (line.split('#')[0].strip() for line in text.splitlines()) if line]


def is_position(line):
    """Whether a line is that of a position row."""
    return line.startswith(('held', 'written'))


def rows_from(text):
    """The position rows of an account's text, each with its series."""
    lines = [line.split() for line in bare_lines(text) if not line.startswith('cover')]
    series_rows = [series_from(words[1:]) for words in lines if words[0] == 'series']
    positions = [words for words in lines if words[0] != 'series']
    return [row_from(number, words, series_rows) for number, words in enumerate(positions)]


def after_flag_1(row):
    """A row that is already knocked in has no barrier and REB 0."""
    return row._replace(kind=None, barrier=0, REB=0) if row.knocked_in else row
