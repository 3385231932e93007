"""The page's part on loads: draws one by one, an account row by row, the file's bytes, and buffers."""
from .agreement import agreed_load, same
from .instalment_blocks import answer_cell, cell, named
from .load import KINDS, SIDES, TYPES, rows_drawn, size, text_of
from .product import file_from_text
from .steps import table
from .terms import bare_lines

DRAWS_HEAD = ['Row', 'Drawn', 'New state', 'k', 'New state mod k', 'Value']
ROWS_HEAD = ['Row', 'Draws: what, new state, draw(k)', 'The row as text']
BUFFERS_HEAD = ['Seed', 'p', 'Bytes of the buffer', 'In words', '`serpentgleam_load`', 'Bytes written',
                'Bytes that stay']
WORDS = {'side': SIDES, 'kind': KINDS, 'type': TYPES}
SEVENS = b'\7'


def row_names(p):
    """The names of a load's rows."""
    return ['series row 0', *(f'position row {number}' for number in range(p))]


def value_cell(draw):
    """The value that a draw gives, with its sum, or the word that it stands for."""
    if draw.what in WORDS:
        return f'{draw.value}: {WORDS[draw.what][draw.value]}'
    return f'{draw.base:,} + {draw.remainder:,} = {draw.value:,}' if draw.base else f'{draw.value:,}'


def numbers_of(block):
    """The seed and the number of positions of a block; the product must make the account that is worked out."""
    seed, p = map(int, block.split())
    agreed_load(seed, p, SEVENS * size(p))
    return seed, p


def draws_table(block):
    """A seed and a number of positions: each draw in its order."""
    seed, p = numbers_of(block)
    cells = [(name, draw.what, f'{draw.state:,}', f'{draw.k:,}', f'{draw.remainder:,}', value_cell(draw))
             for name, row in zip(row_names(p), rows_drawn(seed, p)) for draw in row.draws]
    return table(DRAWS_HEAD, cells)


def rows_table(block):
    """An account of the folder examples, a seed and a number of positions: the draws of each row."""
    name, numbers = block.split(' ', 1)
    seed, p = numbers_of(numbers)
    rows = rows_drawn(seed, p)
    same(block, (bare_lines(named(name)), file_from_text(named(name))),
         ([row.line for row in rows], file_from_text(text_of(seed, p))))
    cells = [(name, cell(f'{draw.what}: {draw.state:,}, draw({draw.k:,}) = {draw.remainder:,}' for draw in row.draws),
              f'`{row.line}`') for name, row in zip(row_names(p), rows)]
    return table(ROWS_HEAD, cells)


def bytes_table(block):
    """A seed and a number of positions: the file's bytes, part by part."""
    seed, p = numbers_of(block)
    file = agreed_load(seed, p, SEVENS * size(p))[1]
    ends = [24 + 32 * number for number in range(p + 1)] + [size(p)]
    cells = [(f'{first} to {end - 1}', name, f'`{file[first:end].hex(" ")}`')
             for first, end, name in zip([0, *ends], ends, [*row_names(p), 'trailer'])]
    return table(['Bytes', 'Part', 'Content, hexadecimal'], cells)


def buffers_table(block):
    """A line for each buffer: the seed, the number of positions, its bytes, all of them sevens, and a remark."""
    cells = []
    for line in block.strip().split('\n'):
        *numbers, why = line.split('; ')
        seed, p, room = map(int, numbers)
        answer, after = agreed_load(seed, p, SEVENS * room)
        made = 0 if answer.startswith('refused') else int(answer)
        same(line, after[made:], SEVENS * (room - made))
        cells.append((f'{seed:,}', f'{p:,}', f'{room:,}', why, answer_cell(answer),
                      f'0 to {made - 1:,}' if made else 'none', f'{room - made:,}' if made else 'all'))
    return table(BUFFERS_HEAD, cells)


FILLERS = {'draws': draws_table, 'load_rows': rows_table, 'load_bytes': bytes_table, 'buffers': buffers_table}
