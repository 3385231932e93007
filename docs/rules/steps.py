"""The pairing of an account as tables: its pairs in the order of choice, the pairs made, the printed lines."""
from .pairing import pairs_of, rows_in, steps_of
from .terms import is_position, shown

ROW_WIDTH = 52  # after it the comment with the row's number, unless a row is longer


def table(head, rows):
    """A Markdown table."""
    lines = ['| ' + ' | '.join(str(cell) for cell in cells) + ' |' for cells in (head, *rows)]
    return '\n'.join([lines[0], '|---' * len(head) + '|', *lines[1:]]).replace('|  |', '| |')


def account_text(block):
    """An account's text with the numbers of its position rows."""
    lines, number = block.strip('\n').split('\n'), 0
    width = max([ROW_WIDTH] + [len(line) for line in lines])
    for at, line in enumerate(lines):
        if is_position(line):
            lines[at] = f'{line:<{width}}  # row {number}'
            number += 1
    return '\n'.join(lines)


def verdict(rows, pair):
    """Whether a pair is allowed while both rows have contracts left, and why."""
    if pair.lowers and rows[pair.held].blocked == rows[pair.held].Q:
        return f'no, row {pair.held} is blocked as a whole'
    if pair.spread is not None:
        sign = '>' if pair.lowers else '≤'
        return f'{"yes" if pair.lowers else "no"}, {shown(pair.alone)} {sign} {shown(pair.spread)}'
    strangers = [number for number in (pair.written, pair.held) if not rows[number].may_pair]
    return f'no, row {strangers[0]} may not pair' if strangers else 'no, barred'


def pairs_table(rows):
    """Every written row with every held row of its series, in the order of choice."""
    head = ['Strike difference', 'Written row', 'Held row', 'Written unit margin', 'Spread margin', 'Allowed at first']
    return table(head,
                 [(pair.difference, pair.written, pair.held, shown(pair.alone),
                   '' if pair.spread is None else shown(pair.spread), verdict(rows, pair)) for pair in pairs_of(rows)])


def less_blocked(row, left):
    """The contracts left of a row, and the blocked ones that are taken off."""
    return f'{left[row.number]} − {row.blocked}' if row.blocked else str(left[row.number])


def made_table(rows):
    """The pairs as they are made."""
    before, cells = {row.number: row.Q for row in rows}, []
    for number, step in enumerate(steps_of(rows)[0], 1):
        written, held = step.pair.written, step.pair.held
        after = ', '.join(f'row {row}: {step.left[row]}' for row in (written, held))
        taken = '; '.join(less_blocked(row, before) for row in rows_in(step.pair, rows))
        cells.append((number, f'written {written}, held {held}', f'min({taken}) = {step.quantity}', after))
        before = step.left
    return table(['Step', 'Pair', 'Contracts taken', 'Contracts left'], cells)


def steps_tables(rows):
    """The pairs in the order of choice, then the steps."""
    return [pairs_table(rows), made_table(rows)]


def meaning(line):
    """A printed line in words."""
    kind, *numbers = line.split()
    return {'pair': 'written row {}, held row {}, contracts {}', 'left': 'row {}, contracts left {}',
            'premium': 'unsettled premiums', 'total': 'amounts and premiums'}[kind].format(*numbers)


def printed_table(answer, product):
    """What margin prints, in words and with the arithmetic."""
    return table(['`margin` prints', 'In words', 'Amount, centavos'],
                 [(f'`{line}`', meaning(line), working) for line, working in zip(product, answer.workings)])
