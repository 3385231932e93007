"""The page's part on paths: what rows pay on them, the cover after each number of pairs and for long expiries."""
from decimal import Decimal

from .agreement import agreed, same
from .examples import examples_in, short
from .instalment_blocks import cell, named
from .instalments import amount_after
from .pairing import steps_of
from .paths import is_excepted, is_path, payment
from .steps import table
from .terms import MILLION, fine, rows_from, shown
from .unit import unit_margin

COVER_HEAD = ['Pairs so far', 'Amount so far', 'Held rows pay for contracts in these pairs', 'Together',
              'Written rows pay']
PATHS_HEAD = ['Paths', 'Total', 'Held rows pay for contracts in pairs', 'Together', 'Written rows pay', 'Covered']
EXCEPTED_HEAD = ['Row', 'Excepted', 'Unit margin, ticks', 'On the path', 'It pays, ticks']


def paid(row, prices, quantity):
    """What so many contracts of a row pay on a path, in millionths of a centavo, and a line that says so in centavos."""
    unit = payment(row, prices)
    money = unit * row.series.M * quantity
    return money, f'row {row.number}: {shown(unit)} × {row.series.M} × {quantity} = {shown(money)}'


def added(payments):
    """The sum of some payments, and their lines."""
    return sum(money for money, _ in payments), cell(line for _, line in payments)


def cover_cells(rows, paths, count):
    """With so many pairs made, and a path for the calls and for the puts: the amount, what held rows pay for contracts in
    the pairs, both together, what written rows pay; and whether together they are enough.
    """
    amount, steps = fine(amount_after(rows, count)), steps_of(rows)[0][:count]
    brought, held = added([paid(rows[step.pair.held], paths[rows[step.pair.held].series.type], step.quantity)
                           for step in steps])
    owed, written = added([paid(row, paths[row.series.type], row.Q) for row in rows if row.side == 'written'])
    together = f'{shown(amount)} + {shown(brought)} = {shown(amount + brought)}'
    return (shown(amount), held, together, written), amount + brought >= owed


def cover_table(block):
    """An account of the folder examples, and the one price of a path: after each number of pairs."""
    name, price = block.split()
    rows, cells = rows_from(named(name)), []
    paths = {row.series.type: [fine(int(price))] for row in rows}
    for count in range(len(steps_of(rows)[0]) + 1):
        shown_cells, covered = cover_cells(rows, paths, count)
        same(f'{block}{count} pairs: covered', covered, True)
        cells.append((count, *shown_cells))
    return table(COVER_HEAD, cells)


def prices_in(listed):
    """The prices of a path in fine units, from ticks with commas between them."""
    return [int(Decimal(price) * MILLION) for price in listed.split(', ')]


def paths_table(block):
    """An account of the folder examples, and a line for each choice of paths, as `call 4000, 4500; put 3300`."""
    name, *lines = block.strip().split('\n')
    text, cells = named(name), []
    rows = rows_from(text)
    same(name, agreed(text)[-1], f'total {amount_after(rows, None)}')
    provided = not any(is_excepted(row) for row in rows)
    for line in lines:
        paths = {kind: prices_in(listed) for kind, listed in (part.split(' ', 1) for part in line.split('; '))}
        same(f'{name} {line}: paths', all(is_path(row.series, paths[row.series.type]) for row in rows), True)
        shown_cells, covered = cover_cells(rows, paths, None)
        same(f'{name} {line}: covered', covered or not provided, True)
        cells.append((line.replace('; ', '<br>'), *shown_cells, 'yes' if covered else 'no'))
    return table(PATHS_HEAD, cells)


def excepted_table(block):
    """Written rows, one to an example, the last line of each a path: whether the cover for long expiries excepts the row."""
    cells = []
    for example, _ in examples_in(block):
        text, _, listed = example.rpartition('\npath ')
        row, prices = rows_from(text)[0], prices_in(listed)
        agreed(text)
        same(f'{example}: path', is_path(row.series, prices), True)
        unit, pays, excepted = unit_margin(row).value, payment(row, prices), is_excepted(row)
        same(f'{example}: covered', unit >= pays or excepted, True)
        cells.append((short(text), 'yes' if excepted else 'no', shown(unit), listed, shown(pays)))
    return table(EXCEPTED_HEAD, cells)


FILLERS = {'cover': cover_table, 'paths': paths_table, 'excepted': excepted_table}
