"""What documents 01 and 02 refuse, as sentences for a reader of the text. The engine's own answer decides."""
from typing import Callable, NamedTuple, Optional

from .layout import HIGHEST, LONGEST_FILE, POSITION, SERIES, TRAILER, distance, trailer_of


class Fault(NamedTuple):
    """A fault of a text or a file; line, table, row, field or refusal is None where it has none."""
    line: Optional[int] = None
    table: Optional[str] = None  # of the row
    row: Optional[int] = None
    field: Optional[str] = None
    refusal: Optional[int] = None
    sentence: str = ''

    def __str__(self):
        places = [f'line {self.line}'] if self.line is not None else []
        places += [f'{self.table} row {self.row}'] if self.row is not None else []
        places += [f'field {self.field}'] if self.field is not None else []
        refusal = [f'refusal {self.refusal}'] if self.refusal is not None else []
        return ': '.join([', '.join(places)] * bool(places) + refusal + [self.sentence])


class Rule(NamedTuple):
    """What ranges alone do not say. `broken` takes a row, and for a position row its series row or None."""
    refusal: int
    field: str
    sentence: str
    broken: Callable[[dict, dict], bool]


def was_touched(row):
    """Whether the flags say that the barrier was touched."""
    return row['knocked-in'] or row['knocked-out']


SERIES_RULES = (
    Rule(5, 'fb', 'fb is 0.0 to fa', lambda row, _: row['fb'] > row['fa']),
)

POSITION_RULES = (
    Rule(7, 'series', 'there is no such series row', lambda row, series: series is None),
    Rule(7, 'knocked-in', 'knocked-in is for up-and-in and down-and-in', lambda row, _:
         row['knocked-in'] and row['kind'] not in (1, 2)),
    Rule(7, 'knocked-out', 'knocked-out is for up-and-out and down-and-out', lambda row, _:
         row['knocked-out'] and row['kind'] not in (3, 4)),
    Rule(7, 'blocked', 'blocked is 0 on a written row', lambda row, _: row['side'] == 1 and row['blocked'] > 0),
    Rule(8, 'blocked', 'blocked is at most Q', lambda row, _: row['side'] == 0 and row['blocked'] > row['Q']),
    Rule(8, 'premium', 'premium is 0 on a written row', lambda row, _: row['side'] == 1 and row['premium'] > 0),
    Rule(9, 'PB', 'PB is 0 without the limiter flag', lambda row, _: not row['limiter'] and row['PB'] > 0),
    Rule(9, 'PB', f'PB of a call is above PE and at most {HIGHEST}', lambda row, series:
         series and series['type'] == 0 and row['limiter'] and not row['PE'] < row['PB'] <= HIGHEST),
    Rule(9, 'PB', 'PB of a put is below PE', lambda row, series:
         series and series['type'] == 1 and row['limiter'] and not row['PB'] < row['PE']),
    Rule(10, 'barrier-price', 'barrier-price is 0 without a barrier', lambda row, _:
         row['kind'] == 0 and row['barrier-price'] > 0),
    Rule(10, 'REB', 'REB is 0 without a barrier', lambda row, _: row['kind'] == 0 and row['REB'] > 0),
    Rule(10, 'barrier-price', f'the price of a barrier is 1 to {HIGHEST}', lambda row, _:
         row['kind'] > 0 and not 1 <= row['barrier-price'] <= HIGHEST),
    Rule(11, 'barrier-price', 'an up barrier is above PV, unless knocked-in or knocked-out', lambda row, series:
         series and row['kind'] in (1, 3) and not was_touched(row) and row['barrier-price'] <= series['PV']),
    Rule(11, 'barrier-price', 'a down barrier is below PV, unless knocked-in or knocked-out', lambda row, series:
         series and row['kind'] in (2, 4) and not was_touched(row) and row['barrier-price'] >= series['PV']),
)


def outside(table, row):
    """The fields of a row that are outside their limits."""
    return [field for field in table.fields
            if field.limits and not field.limits.least <= row[field.name] <= field.limits.most]


def limits_sentence(field):
    least, most = field.form.write(field.limits.least), field.form.write(field.limits.most)
    return f'{field.name} is {least}' if least == most else f'{field.name} is {least} to {most}'


def row_faults(table, rules, number, row, series=None):
    """Each fault of a row, in the order of the refusals' numbers."""
    found = [(field.limits.refusal, field.name, limits_sentence(field)) for field in outside(table, row)]
    found += [(rule.refusal, rule.field, rule.sentence) for rule in rules if rule.broken(row, series)]
    return [Fault(None, table.name, number, field, refusal, sentence)
            for refusal, field, sentence in sorted(found, key=lambda fault: fault[0])]


def series_faults(account):
    """The faults of each series row."""
    return [row_faults(SERIES, SERIES_RULES, number, row) for number, row in enumerate(account.series)]


def position_faults(account):
    """The faults of each position row."""
    series_rows = dict(enumerate(account.series))
    return [row_faults(POSITION, POSITION_RULES, number, row, series_rows.get(row['series']))
            for number, row in enumerate(account.positions)]


def all_row_faults(account):
    """The faults of all rows in the order of the reading, so that the first is the one the file is refused for."""
    return [fault for faults in series_faults(account) + position_faults(account) for fault in faults]


def first_refusal(account):
    """The answer for the first fault of the rows, such as `refused 8 3`, or None."""
    return next((f'refused {fault.refusal} {fault.row}' for fault in all_row_faults(account)), None)


def distance_faults(data, trailer):
    """The fault of the trailer's distance, or none."""
    expected = distance(trailer['series count'], trailer['position count'])
    if trailer['distance'] != expected:
        sentence = f'the distance in the trailer is {trailer["distance"]}, and its counts make it {expected}'
    elif expected > len(data):
        sentence = f'the distance in the trailer is {expected}, and the file has only {len(data)} bytes'
    else:
        return []
    return [Fault(field='distance', refusal=4, sentence=sentence)]


def trailer_faults(data):
    """Each fault of a file's length and trailer, in the order of the refusals' numbers."""
    if not TRAILER.size <= len(data) <= LONGEST_FILE:
        bytes_here = f'{len(data)} bytes' if len(data) <= LONGEST_FILE else f'more than {LONGEST_FILE} bytes'
        return [Fault(refusal=1, sentence=f'the file has {bytes_here}, and an account file has {TRAILER.size} to '
                                          f'{LONGEST_FILE}')]
    trailer = trailer_of(data)
    faults = [Fault(field=field.name, refusal=field.limits.refusal, sentence=f'in the trailer the '
                    f'{limits_sentence(field)}, and here it is {field.form.write(trailer[field.name])}')
              for field in outside(TRAILER, trailer)]
    return faults + distance_faults(data, trailer)
