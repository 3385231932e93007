"""The account file: each field with its place, limits and refusal; from bytes to rows and back."""
from typing import NamedTuple, Optional, Tuple

from .forms import FACTOR, WHOLE, Form, hexadecimal

LONGEST_FILE = 65_536
HIGHEST = 10_000_000  # price, strike, limiter, rebate or premium


class Limits(NamedTuple):
    """A range and the refusal for a value outside it."""
    least: int
    most: int
    refusal: int


class Field(NamedTuple):
    name: str
    offset: int
    width: int
    limits: Optional[Limits]  # None where they depend on other fields; then a rule in faults.py has them
    default: Optional[int] = None  # the value where the text does not give the field; None where it must
    form: Form = WHOLE
    own_bits: Optional[int] = None  # of its bytes, where other fields have the rest

    @property
    def bits(self):
        return (1 << 8 * self.width) - 1 if self.own_bits is None else self.own_bits


class Table(NamedTuple):
    name: str
    size: int
    fields: Tuple[Field, ...]


SERIES = Table('series', 24, (
    Field('PV', 0, 4, Limits(1, HIGHEST, 5)),
    Field('fa', 4, 4, Limits(1_000_000, 10_000_000, 5), form=FACTOR),
    Field('fb', 8, 4, None, form=FACTOR),
    Field('f3', 12, 4, Limits(0, 1_000_000, 5), form=FACTOR),
    Field('M', 16, 4, Limits(1, 1_000, 5)),
    Field('type', 20, 1, Limits(0, 1, 6)),
    Field('spare', 21, 3, Limits(0, 0, 6), 0, hexadecimal(3)),
))

POSITION = Table('position', 32, (
    Field('series', 0, 2, None),
    Field('side', 2, 1, Limits(0, 1, 7)),
    Field('kind', 3, 1, Limits(0, 4, 7), 0),
    Field('knocked-in', 4, 1, None, 0, own_bits=1),
    Field('limiter', 4, 1, None, 0, own_bits=2),
    Field('european', 4, 1, None, 0, own_bits=4),
    Field('before-annex', 4, 1, None, 0, own_bits=8),
    Field('knocked-out', 4, 1, None, 0, own_bits=16),
    Field('other-flags', 4, 1, Limits(0, 0, 7), 0, own_bits=32 + 64 + 128),
    Field('blocked', 5, 3, None, 0),
    Field('Q', 8, 4, Limits(1, 100_000, 8)),
    Field('PE', 12, 4, Limits(1, HIGHEST, 8)),
    Field('PB', 16, 4, None, 0),
    Field('barrier-price', 20, 4, None, 0),
    Field('REB', 24, 4, Limits(0, HIGHEST, 8), 0),
    Field('premium', 28, 4, Limits(0, HIGHEST, 8), 0),
))

TRAILER = Table('trailer', 12, (
    Field('series count', 0, 2, Limits(1, 32, 2)),
    Field('position count', 2, 2, Limits(0, 256, 2)),
    Field('distance', 4, 4, None),
    Field('ending', 8, 4, Limits(0, 0, 2), form=hexadecimal(4)),
))

MOST_ROWS = TRAILER.fields[0].bits  # that a count in the trailer can say


class Account(NamedTuple):
    """A file taken apart; each row has its values by the names of its fields."""
    cover: bytes
    series: list
    positions: list


def pack(table, row):
    packed = 0
    for field in table.fields:
        packed |= row[field.name] << 8 * field.offset
    return packed.to_bytes(table.size, 'little')


def unpack(table, data):
    packed = int.from_bytes(data, 'little')
    return {field.name: packed >> 8 * field.offset & field.bits for field in table.fields}


def distance(series_count, position_count):
    """From the file's end back to the first series row."""
    return TRAILER.size + SERIES.size * series_count + POSITION.size * position_count


def file_of(account, trailer=None):
    """The file's bytes. The values of the trailer's fields can be given; otherwise they are in order."""
    counts = len(account.series), len(account.positions)
    values = (*counts, distance(*counts), 0) if trailer is None else trailer
    rows = [pack(SERIES, row) for row in account.series] + [pack(POSITION, row) for row in account.positions]
    return account.cover + b''.join(rows) + pack(TRAILER, dict(zip((field.name for field in TRAILER.fields), values)))


def trailer_of(data):
    return unpack(TRAILER, data[-TRAILER.size:])


def account_of(data):
    """The file's parts. Its trailer must be in order, see faults.trailer_faults."""
    trailer = trailer_of(data)
    first_series = len(data) - trailer['distance']
    first_position = first_series + SERIES.size * trailer['series count']
    rows = [[unpack(table, data[at:at + table.size]) for at in range(start, end, table.size)]
            for table, start, end in ((SERIES, first_series, first_position),
                                      (POSITION, first_position, len(data) - TRAILER.size))]
    return Account(data[:first_series], *rows)
