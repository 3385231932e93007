"""The page's part on blocked contracts: rows and accounts with and without them, a day, and lists of lines."""
import re

from .agreement import agreed, agreed_amount, agreed_apart, agreed_call, agreed_day, agreed_margin
from .apart_blocks import ANY_LINE
from .day import Day, rows_after
from .examples import examples_in, short
from .instalment_blocks import answer_cell, cell, named
from .steps import table
from .terms import bare_lines, is_position, rows_from

NUMBERS_HEAD = ['Rows', 'Held contracts that may be paired', '`margin` prints']
ROOMS_HEAD = ['Entries in the list', '`serpentgleam_margin`', 'Entries that it writes',
              '`serpentgleam_pair`, allowance 1', '`serpentgleam_amount_so_far`', '`serpentgleam_take_apart`, k = 0']


def account_in(lines):
    """An account of the folder examples by its path, or the account whose text the lines are."""
    return named(lines[0]) if lines[0].endswith('.txt') else '\n'.join(lines) + '\n'


def printed_cell(text):
    """The lines that margin prints for an account's text."""
    return cell(f'`{line}`' for line in agreed(text))


def unblocked(text):
    """An account's text without its blocked contracts."""
    return re.sub(r' blocked=[0-9]+', '', text)


def numbers_table(block):
    """Accounts, one to an example: of each held row how many contracts may be paired."""
    cells = []
    for example, text in examples_in(block):
        free = [f'row {row.number}: {row.Q} − {row.blocked} = {row.Q - row.blocked}' for row in rows_from(text)
                if row.side == 'held']
        cells.append((short(example), cell(free), printed_cell(text)))
    return table(NUMBERS_HEAD, cells)


def compared_table(block):
    """What margin prints for an account, and for the same account with none blocked."""
    text = account_in(block.strip().split('\n'))
    return table(['With the blocked contracts', 'If none were blocked'],
                 [(printed_cell(text), printed_cell(unblocked(text)))])


def day_table(block):
    """An account, the last line a day of a series: each row and what margin prints, before and after it."""
    *lines, numbers = block.strip().split('\n')
    text, day = account_in(lines), Day(*map(int, numbers.split()))
    after = agreed_day(text, day)
    rows = [[line for line in bare_lines(one) if is_position(line)] for one in (text, after)]
    cells = [(number, f'`{before}`', row.test, f'`{then}`')
             for number, (row, before, then) in enumerate(zip(rows_after(text, day), *rows, strict=True))]
    return '\n\n'.join([table(['Row', 'Before the day', 'Test', 'After the day'], cells),
                        table(['`margin` prints before the day', '`margin` prints after it'],
                              [(printed_cell(text), printed_cell(after))])])


def rooms_table(block):
    """An account, the last line numbers of entries: what each call answers for lists of so many."""
    *lines, rooms = block.strip().split('\n')
    text, cells = account_in(lines), []
    for room in map(int, rooms.split()):
        entries = [ANY_LINE] * room
        margin, after = agreed_margin(text, entries)
        answers = [margin, agreed_call(text, entries, 0, 1)[0], agreed_amount(text, entries, 0),
                   agreed_apart(text, entries, 0, 0)[0]]
        first, *others = map(answer_cell, answers)
        cells.append((room, first, sum(entry != ANY_LINE for entry in after), *others))
    return table(ROOMS_HEAD, cells)


FILLERS = {'blocked': numbers_table, 'blocked_or_not': compared_table, 'blocked_day': day_table, 'rooms': rooms_table}
