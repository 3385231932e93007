"""A series' high, low and close of a day, put into an account's text by hand from document 02 [5]."""
import re
from typing import NamedTuple

from .terms import BARRIERS, bare_lines, is_position, rows_from, values_of

MOST = 10_000_000
FLAG_WORDS = {'up-and-in': 'knocked-in', 'down-and-in': 'knocked-in', 'up-and-out': 'knocked-out',
              'down-and-out': 'knocked-out'}


class Day(NamedTuple):
    """A series row, counted from 0, and its prices of the day in ticks."""
    series: int
    high: int
    low: int
    close: int


class After(NamedTuple):
    """A position row's line before a day, the word that the day adds to it, if any, and the test of its barrier."""
    line: str
    added: str
    test: str

    @property
    def text(self):
        """The line after the day."""
        return f'{self.line} {self.added}'.rstrip()


def touch(row, day):
    """Whether the day touched a row's barrier, and the test."""
    symbol = BARRIERS[row.kind]
    if row.kind.startswith('up'):
        touched = day.high >= row.barrier
        test = f'high = {day.high} {"≥" if touched else "<"} {symbol} = {row.barrier}'
    else:
        touched = day.low <= row.barrier
        test = f'low = {day.low} {"≤" if touched else ">"} {symbol} = {row.barrier}'
    return touched, f'{test}: {"touched" if touched else "not touched"}'


def row_after(line, row, day):
    """A row after the day, which may be one of another series."""
    if int(values_of(line.split()).get('series', 0)) != day.series:
        return After(line, '', 'of another series')
    if row.kind is None:
        return After(line, '', 'no barrier')
    touched, test = touch(row, day)
    word = FLAG_WORDS[row.kind]
    return After(line, word if touched and word not in line.split() else '', test)


def rows_after(text, day):
    """Each position row after the day."""
    lines = [line for line in bare_lines(text) if is_position(line)]
    return [row_after(line, row, day) for line, row in zip(lines, rows_from(text), strict=True)]


def text_after(text, day):
    """An account's text after the day: flags of the series' rows and its PV are written, and nothing else."""
    lines, series, positions = [], 0, iter(rows_after(text, day))
    for line in bare_lines(text):
        if line.startswith('series'):
            line = re.sub(r'PV=[0-9]+', f'PV={day.close}', line) if series == day.series else line
            series += 1
        lines.append(next(positions).text if is_position(line) else line)
    return '\n'.join(lines) + '\n'


def refused(text, day):
    """The refusal of a day for an account that is in order, or None."""
    if day.series >= sum(line.startswith('series') for line in bare_lines(text)):
        return 'refused 16 0'
    outside = day.close < day.low or day.close > day.high
    out_of_range = [price for price in (day.high, day.low, day.close) if not 1 <= price <= MOST]
    return 'refused 17 0' if day.high < day.low or outside or out_of_range else None
