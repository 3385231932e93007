"""The page's part on taking pairs apart: calls one after the other, with sales between them, and lists that are refused."""
from typing import NamedTuple

from .agreement import agreed, agreed_amount, agreed_apart, agreed_call, same
from .apart import contracts_left, text_after_sale
from .instalment_blocks import amount_cells, answer_cell, entries_cell, entries_in, named
from .pairing import steps_of
from .steps import table
from .terms import rows_from

ANY_LINE = (7, 7, 7, 7, 7)
TURNS_HEAD = ['What is done', 'Answer', 'Count then', 'List then', 'Contracts left, row by row',
              'Amount so far: pairs, contracts left, premiums']
LISTS_HEAD = ['List', 'Count', 'k', 'In words', '`serpentgleam_take_apart`', 'List after the call']


class Kept(NamedTuple):
    """What a caller keeps: the account's text, the list and how many pair lines are in it."""
    text: str
    entries: list
    count: int


def after_pairing(kept, allowance):
    """What is done in words, the answer and what is kept after it, of a call that makes pairs."""
    answer, entries = agreed_call(kept.text, kept.entries, kept.count, allowance)
    made = 0 if answer.startswith('refused') else int(answer)
    return f'pair, allowance {allowance}', answer, Kept(kept.text, entries, kept.count + made)


def after_apart(kept, k):
    """The same of a call that takes pairs apart."""
    answer, entries = agreed_apart(kept.text, kept.entries, kept.count, k)
    count = kept.count if answer.startswith('refused') else int(answer)
    return f'take apart {k}', answer, Kept(kept.text, entries, count)


def after_sale(kept, row, contracts):
    """The same of a sale: the file is another one, list and count stay."""
    text = text_after_sale(kept.text, row, contracts)
    agreed(text)
    before, after = (rows_from(kept_text)[row].Q for kept_text in (kept.text, text))
    return f'the client sells {contracts} of held row {row}: Q {before} → {after}', '', kept._replace(text=text)


DONE = {'pair': after_pairing, 'apart': after_apart, 'sell': after_sale}


def kept_cells(kept):
    """Count, list, contracts left in every row and amount; where the lines are not the first pairs nothing is left."""
    amount = agreed_amount(kept.text, kept.entries, kept.count)
    cells = [kept.count, entries_cell(kept.entries)]
    if amount.startswith('refused'):
        return (*cells, '', answer_cell(amount))
    rows = rows_from(kept.text)
    left = contracts_left(rows, kept.entries[:kept.count])
    steps = steps_of(rows)[0][:kept.count]
    same(kept, left, list(steps[-1].left.values()) if steps else [row.Q for row in rows])
    sum_cell = amount_cells(rows, 0, kept.count)[-1]
    same(kept, amount, sum_cell.split()[-1])
    return (*cells, ', '.join(map(str, left)), sum_cell)


def turns_table(block):
    """An account of the folder examples, and what is done one after the other, a line for each."""
    name, *lines = block.strip().split('\n')
    text = named(name)
    kept = Kept(text, [ANY_LINE] * 2 * len(rows_from(text)), 0)
    cells = [('begin', '', *kept_cells(kept))]
    for line in lines:
        word, *numbers = line.split()
        what, answer, kept = DONE[word](kept, *map(int, numbers))
        cells.append((what, answer_cell(answer), *kept_cells(kept)))
    return table(TURNS_HEAD, cells)


def lists_table(block):
    """An account of the folder examples, and a line for each list: its entries, the count, k and a remark."""
    name, *lines = block.strip().split('\n')
    text, cells = named(name), []
    for line in lines:
        listed, count, k, why = line.split('; ')
        entries = entries_in(listed)
        answer, after = agreed_apart(text, entries, int(count), int(k))
        cells.append((entries_cell(entries), f'{int(count):,}', f'{int(k):,}', why, answer_cell(answer),
                      'as it was' if after == entries else entries_cell(after)))
    return table(LISTS_HEAD, cells)


FILLERS = {'turns': turns_table, 'apart_lists': lists_table}
