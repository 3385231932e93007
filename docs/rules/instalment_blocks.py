"""The page's part on instalments: amounts between calls, and calls with their lists."""
from itertools import groupby

from .agreement import agreed_amount, agreed_amounts, agreed_call, same
from .examples import account_bytes, account_text_of
from .instalments import NO_LINE, counts_between
from .pairing import answer_of
from .product import file_from_text
from .steps import table
from .terms import rows_from

AMOUNTS_HEAD = ['Pairs so far', 'Pairs that the call made', 'Written contracts left',
                'Amount so far: pairs, contracts left, premiums', '`serpentgleam instalments` prints']
CALLS_HEAD = ['Count', 'Allowance', 'Pairs made', 'List after the call', 'Amount so far then']
LISTS_HEAD = ['List', 'Count', 'In words', '`serpentgleam_pair` with allowance 1', '`serpentgleam_amount_so_far`']


def named(name):
    """The text of an account of the folder examples, whose account file must be the file of the text."""
    text = account_text_of(name)
    same(name, account_bytes(name), file_from_text(text))
    return text


def cell(lines):
    """Some lines of a cell, or none."""
    return '<br>'.join(lines) or 'none'


def entries_cell(entries):
    """Entries of a list, each in its own line; equal ones that follow one another stand there once."""
    runs = [('`' + ' '.join(map(str, entry)) + '`', len(list(equal))) for entry, equal in groupby(entries)]
    return cell(entry if times == 1 else f'{entry} × {times}' for entry, times in runs)


def entries_in(listed):
    """The entries of a list that a block names; after × stands how many there are of an entry."""
    named_entries = [] if listed == 'none' else [entry.partition(' × ') for entry in listed.split(', ')]
    return [tuple(map(int, entry.split())) for entry, _, times in named_entries for _ in range(int(times or 1))]


def answer_cell(answer):
    """A number as it is, a refusal as what is printed."""
    return f'`{answer}`' if answer.startswith('refused') else answer


def amount_cells(rows, before, count):
    """The pairs from one count to the next, the written rows left after them, and the sum."""
    answer = answer_of(rows, count)
    lines = [(*line.split(), working) for line, working in zip(answer.lines, answer.workings)]
    pairs, left = ([line for line in lines if line[0] == kind] for kind in ('pair', 'left'))
    parts = [sum(int(line[-2]) for line in part) for part in (pairs, left, lines[-2:-1])]
    return (cell(f'rows {line[1]} and {line[2]}: {line[-1]}' for line in pairs[before:]),
            cell(f'row {line[1]}: {line[-1]}' for line in left if rows[int(line[1])].side == 'written'),
            f'{" + ".join(map(str, parts))} = {sum(parts)}')


def amounts_table(block):
    """An account of the folder examples and an allowance: the amounts before any pair and after each call."""
    name, allowance = block.split()
    text = named(name)
    rows, printed = rows_from(text), agreed_amounts(text, name.replace('.txt', '.account'), int(allowance))
    counts = counts_between(rows, int(allowance))
    return table(AMOUNTS_HEAD, [(count, *amount_cells(rows, before, count), f'`{line}`')
                                for before, count, line in zip([0, *counts], counts, printed)])


def calls_table(block):
    """An account of the folder examples, and calls one after the other, by their allowances."""
    name, *allowances = block.split()
    text = named(name)
    entries, count, cells = [NO_LINE] * 2 * len(rows_from(text)), 0, []
    for allowance in map(int, allowances):
        made, entries = agreed_call(text, entries, count, allowance)
        cells.append((count, f'{allowance:,}', made, entries_cell(entries)))
        count += int(made)
        cells[-1] += (agreed_amount(text, entries, count),)
    return table(CALLS_HEAD, cells)


def lists_table(block):
    """An account of the folder examples, and a line for each list: its entries, the count, and why it is refused."""
    name, *lines = block.strip().split('\n')
    text, cells = named(name), []
    for line in lines:
        listed, count, why = line.split('; ')
        entries = entries_in(listed)
        answers = [agreed_call(text, entries, int(count), 1)[0], agreed_amount(text, entries, int(count))]
        cells.append((entries_cell(entries), f'{int(count):,}', why, *map(answer_cell, answers)))
    return table(LISTS_HEAD, cells)


FILLERS = {'instalments': amounts_table, 'calls': calls_table, 'lists': lists_table}
