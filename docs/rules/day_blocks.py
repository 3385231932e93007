"""The page's part on days: rows and accounts before and after a day, and days that are refused."""
import re

from .agreement import agreed, agreed_day, agreed_refusal, same
from .day import Day, rows_after
from .examples import account_bytes, account_text_of, examples_in, priced, short
from .product import file_from_text
from .steps import table
from .terms import rows_from
from .unit import amount, unit_margin

DAYS_HEAD = ['Day, and row before it', 'Test', 'Flag that is set', 'Unit margin before; `margin` prints',
             'Unit margin after; `margin` prints']


def day_in(example):
    """The day of series row 0 that the first line of an example says."""
    prices = re.match('# high ([0-9]+), low ([0-9]+), close ([0-9]+)', example).groups()
    return Day(0, *map(int, prices))


def set_flag(row):
    """The word that a day adds to a row, for a table."""
    return f'`{row.added}`' if row.added else 'none'


def margin_cell(text):
    """The unit margin of an account's one row, and what margin prints."""
    (row,), product = rows_from(text), agreed(text)
    if row.side == 'held':
        return priced('none, held', product[:1])
    unit = unit_margin(row)
    return '<br>'.join([unit.result, priced(amount(unit.value, row, row.Q)[1], product[:1])])


def days_table(block):
    """Days of a series that has one row, one to an example."""
    cells = []
    for example, text in examples_in(block):
        day = day_in(example)
        (row,) = rows_after(text, day)
        cells.append((short(example), row.test, set_flag(row), margin_cell(text), margin_cell(agreed_day(text, day))))
    return table(DAYS_HEAD, cells)


def day_table(block):
    """An account of the folder examples, a day, and the account after it, which is in the folder too."""
    before, numbers, after = block.strip().split('\n')
    day, text = Day(*map(int, numbers.split())), account_text_of(before)
    made = file_from_text(agreed_day(text, day))
    same(block, (account_bytes(after), file_from_text(account_text_of(after))), (made, made))
    cells = [(number, row.test, set_flag(row)) for number, row in enumerate(rows_after(text, day))]
    return table(['Row', 'Test', 'Flag that is set'], cells)


def refused_table(block):
    """An account of the folder examples, and days that are refused, a line for each."""
    name, *lines = block.strip().split('\n')
    text, days = account_text_of(name), [Day(*map(int, line.split())) for line in lines]
    return table(['Series', 'High', 'Low', 'Close', '`day_batch` prints'],
                 [(*(f'{number:,}' for number in day), f'`{agreed_refusal(text, day)}`') for day in days])


FILLERS = {'days': days_table, 'day': day_table, 'refused_days': refused_table}
