"""The worked examples of the page: each block of the prose filled with arithmetic and with what margin prints."""
import re

from . import apart_blocks, blocked_blocks, day_blocks, factor_blocks, instalment_blocks, load_blocks, path_blocks
from .agreement import agreed, same
from .examples import account_bytes, account_text_of, examples_in, in_block, priced, short
from .pairing import answer_of, steps_of
from .product import printed
from .refusals import refusal_table
from .spread import unit_spread
from .steps import account_text, printed_table, steps_tables, table
from .terms import bare_lines, rows_from, shown
from .unit import amount, unit_margin

BLOCK = re.compile(r'^```(\w+)\n(.*?)^```$', re.MULTILINE | re.DOTALL)
UNITS_HEAD = ['Row', 'Test and payoff', 'Unit margin, ticks', 'Amount, centavos; `margin` prints']
PAIRS_HEAD = ['Rows', 'Tests', 'Spread margin, ticks', 'Written unit margin',
              'Amount, centavos; `margin` prints']


def in_ticks(result):
    """A result with its unit."""
    return f'{result} tick' if result.split()[-1] == '1' else f'{result} ticks'


def rendered(example, lines, product):
    """An example line by line: the rows, the arithmetic and the product's lines."""
    last = f'{lines[-1]}; margin prints: {", ".join(product)}'
    return '\n'.join([example, *('    ' + line for line in [*lines[:-1], last])])


def unit_block(block):
    """Written rows, one to an example, line by line."""
    parts = []
    for example, text in examples_in(block):
        row, product = rows_from(text)[0], agreed(text)
        unit = unit_margin(row)
        parts.append(rendered(example, [*unit.tests, *unit.payoff, f'unit margin = {in_ticks(unit.result)}',
                                        f'amount = {amount(unit.value, row, row.Q)[1]} centavos'], product[:1]))
    return in_block(parts)


def units_table(block):
    """Written rows, one to an example, as a table."""
    cells = []
    for example, text in examples_in(block):
        row, product = rows_from(text)[0], agreed(text)
        unit = unit_margin(row)
        cells.append((short(example), '<br>'.join(unit.tests + unit.payoff), unit.result,
                      priced(amount(unit.value, row, row.Q)[1], product[:1])))
    return table(UNITS_HEAD, cells)


def compared(written, spread):
    """The written unit margin beside the spread's, and the amount of the pair if there is one."""
    alone = unit_margin(written).value
    if spread.value is None:
        return shown(alone), ''
    lower = alone > spread.value
    verdict = f'{shown(alone)} {">" if lower else "≤"} {shown(spread.value)}: {"pair" if lower else "no pair"}'
    return verdict, amount(spread.value, written, written.Q)[1] if lower else ''


def pair_lines(written, held):
    """The arithmetic of a written row, row 0, beside a held one, row 1."""
    strangers = [row.number for row in (written, held) if not row.may_pair]
    if strangers:
        return [f'row {strangers[0]} is neither European nor opened before the annex: no pair']
    spread = unit_spread(written, held)
    if spread.value is None:
        return [*spread.tests, 'barred: no pair']
    verdict, arithmetic = compared(written, spread)
    return [*spread.tests, *spread.payoff, f'spread margin = {in_ticks(spread.result)}',
            f'written unit margin = {in_ticks(unit_margin(written).result)}; {verdict}', f'amount = {arithmetic} centavos']


def pair_block(block):
    """A written and a held row, line by line."""
    return in_block([rendered(example, pair_lines(*rows_from(text)), agreed(text)[:-2])
                     for example, text in examples_in(block)])


def pairs_table(block):
    """A written and a held row, both European, as a table."""
    cells = []
    for example, text in examples_in(block):
        (written, held), product = rows_from(text), agreed(text)
        spread = unit_spread(written, held)
        verdict, arithmetic = compared(written, spread)
        cells.append((short(example), '<br>'.join(spread.tests), '<br>'.join([*spread.payoff, spread.result]), verdict,
                      priced(arithmetic, product[:-2])))
    return table(PAIRS_HEAD, cells)


def quantities_block(block):
    """H, L and MM of a series. The block's rows, which are not shown, have them in their amounts."""
    series = rows_from(block)[0].series
    lines = [f'H = PV × fa = {series.PV} × {shown(series.fa)} = {shown(series.H)} ticks',
             f'L = PV × fb = {series.PV} × {shown(series.fb)} = {shown(series.L)} ticks',
             f'MM = f3 × PV = {shown(series.f3)} × {series.PV} = {shown(series.MM)} ticks']
    agreed(block)
    return in_block([block.split('\n')[0] + '\n' + '\n'.join('    ' + line for line in lines)])


def account_block(block):
    """An account, its unit margins and its printed lines."""
    rows = rows_from(block)
    lines = [line for row in rows if row.side == 'written' for line in alone_lines(row)]
    lines += [made_line(rows[step.pair.written], rows[step.pair.held]) for step in steps_of(rows)[0]]
    body = in_block(['\n'.join([account_text(block), *('    ' + line for line in lines)])])
    return body + '\n\n' + printed_table(answer_of(rows), agreed(block))


def example_block(block):
    """An account of the folder examples, by its text; the account file beside it must have the same answer."""
    text = account_text_of(block.strip())
    same(block, printed(account_bytes(block.strip())), agreed(text))
    return account_block('\n'.join(line for line in bare_lines(text) if not line.startswith('cover')) + '\n')


def alone_lines(row):
    """The unit margin of a written row in an account."""
    unit = unit_margin(row)
    return [f'row {row.number}: {line}' for line in [*unit.payoff, f'unit margin = {in_ticks(unit.result)}']]


def made_line(written, held):
    """The unit spread margin of a pair of an account."""
    return (f'rows {written.number} and {held.number}: strike difference {abs(held.PE - written.PE)}, '
            f'spread margin = {in_ticks(unit_spread(written, held).result)}')


def steps_block(block):
    """An account with all its pairs, the steps of the pairing and its printed lines."""
    rows, product = rows_from(block), agreed(block)
    return '\n\n'.join([in_block([account_text(block)]), *steps_tables(rows), printed_table(answer_of(rows), product)])


FILLERS = {'unit': unit_block, 'units': units_table, 'pair': pair_block, 'pairs': pairs_table,
           'quantities': quantities_block, 'account': account_block, 'example': example_block, 'steps': steps_block,
           'refusals': refusal_table, **factor_blocks.FILLERS, **day_blocks.FILLERS, **instalment_blocks.FILLERS,
           **apart_blocks.FILLERS, **blocked_blocks.FILLERS, **load_blocks.FILLERS, **path_blocks.FILLERS}


def filled(prose):
    """The page: the prose with every block filled; blocks of other names stay."""
    return BLOCK.sub(lambda found: FILLERS[found[1]](found[2]) if found[1] in FILLERS else found[0], prose)
