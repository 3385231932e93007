"""What documents 01 and 02 refuse: each number with an example file, and what margin prints for it."""
from .agreement import same
from .product import file_from_text, printed
from .terms import SERIES_TEXT

CALL, PUT = SERIES_TEXT['call'], SERIES_TEXT['put']
GOOD = 'written Q=10 PE=3100 european'
MOST = '10,000,000'


def rows(*lines, series=CALL, trailer=None):
    """The file of a series and some position rows."""
    return file_from_text('\n'.join([series, *lines]) + '\n', trailer)


# Number, what it is given for, the example in words, its file, the row that the answer must name. 3 is withdrawn.
REFUSALS = [
    (1, 'Trailer: file below 12 or above 65,536 bytes', 'a file of 11 bytes', lambda: bytes(11), 0),
    (2, 'Trailer: s not 1 to 32, p above 256, or one of the last four bytes not zero', 's = 33',
     lambda: rows(GOOD, trailer=(33, 1, 12 + 24 * 33 + 32, 0)), 0),
    (4, 'Trailer: distance not 12 + 24 × s + 32 × p, or longer than the file', 's = 1, p = 1, distance 69',
     lambda: rows(GOOD, trailer=(1, 1, 12 + 24 + 32 + 1, 0)), 0),
    (5, f'Series row: PV not 1 to {MOST}, fa not 1.0 to 10.0, fb not 0.0 to fa, f3 not 0.0 to 1.0, or M not 1 to 1,000',
     '`fa=1.2 fb=1.3`', lambda: rows(GOOD, series=CALL.replace('fb=0.8', 'fb=1.3')), 0),
    (6, 'Series row: type above 1, or a spare byte not zero', '`type=2`',
     lambda: rows(GOOD, series=CALL.replace('call', 'type=2')), 0),
    (7, 'Position row: series not below s, side above 1, barrier kind above 4, a flag beside 1, 2, 4, 8 and 16, '
     'already knocked in without an up-and-in or down-and-in, already knocked out without an up-and-out or '
     'down-and-out, or blocked contracts on a written row', '`up-and-out=3500 knocked-in`',
     lambda: rows(GOOD + ' up-and-out=3500 knocked-in'), 0),
    (8, f'Position row: Q not 1 to 100,000, PE not 1 to {MOST}, REB or premium above {MOST}, a premium on a written '
     'row, or more contracts blocked than Q', '`written Q=10 PE=3100 premium=20`', lambda: rows(GOOD + ' premium=20'), 0),
    (9, f'Position row: PB not 0 without a limiter; with one, a call needs PE < PB ≤ {MOST} and a put 0 ≤ PB < PE',
     'call, `PE=3100 PB=3100`', lambda: rows(GOOD + ' PB=3100'), 0),
    (10, f'Position row: without a barrier, barrier price or REB not 0; with one, price not 1 to {MOST}',
     '`PE=3100 REB=40`, no barrier', lambda: rows(GOOD + ' REB=40'), 0),
    (11, 'Position row: up barrier not above PV, or down barrier not below PV, unless already knocked in or knocked '
     'out', '`PV=3000`, second row `down-and-out=3000`', lambda: rows(GOOD, GOOD + ' down-and-out=3000'), 1),
]
# Two faults at once, rows already knocked in or out, and files without positions: the example in words, its file, what
# margin must print.
OTHER_FILES = [
    ('one row: Q = 0 (8) and PB = PE (9)', lambda: rows('written Q=0 PE=3100 PB=3100 european'), 'refused 8 0'),
    ('position row 0: Q = 0 (8); series row 1: M = 0 (5)', lambda: rows(
        'written series=0 Q=0 PE=3100 european', series=CALL + '\n' + PUT.replace('M=5', 'M=0')), 'refused 5 1'),
    ('position row 0: barrier at PV (11); position row 1: Q = 0 (8)',
     lambda: rows(GOOD + ' up-and-out=3000', 'written Q=0 PE=3100 european'), 'refused 11 0'),
    ('position row 0: already knocked in, up-and-in at PV: no fault',
     lambda: rows(GOOD + ' up-and-in=3000 knocked-in'), 'left 0 10 25000'),
    ('position row 0: already knocked out, down-and-out above PV: no fault',
     lambda: rows(GOOD + ' down-and-out=3001 REB=40 knocked-out'), 'left 0 10 2000'),
    ('position row 0: already knocked out, down-and-out of 0 (10)',
     lambda: rows(GOOD + ' down-and-out=0 knocked-out'), 'refused 10 0'),
    ('position row 0: already knocked out, up-and-in (7)',
     lambda: rows(GOOD + ' up-and-in=3500 knocked-out'), 'refused 7 0'),
    ('position row 0: already knocked out, no barrier (7)', lambda: rows(GOOD + ' knocked-out'), 'refused 7 0'),
    ('position row 0: flag 32 (7)', lambda: rows(GOOD + ' up-and-out=3500 other-flags=32'), 'refused 7 0'),
    ('position row 0, held: 10 of 10 contracts blocked: no fault', lambda: rows('held Q=10 PE=3100 blocked=10 european'),
     'left 0 10 0'),
    ('position row 0, held: 11 of 10 contracts blocked (8)', lambda: rows('held Q=10 PE=3100 blocked=11 european'),
     'refused 8 0'),
    ('position row 0, held: 16,777,215 blocked, the most that the bytes hold (8)',
     lambda: rows('held Q=100000 PE=3100 blocked=16777215 european'), 'refused 8 0'),
    ('position row 0, written: 1 blocked (7)', lambda: rows(GOOD + ' blocked=1'), 'refused 7 0'),
    ('position row 0, written: 11 of 10 contracts blocked (7), and not 8', lambda: rows(GOOD + ' blocked=11'),
     'refused 7 0'),
    ('position row 0, held: 11 of 10 contracts blocked (8) and PB = PE (9)',
     lambda: rows('held Q=10 PE=3100 PB=3100 blocked=11 european'), 'refused 8 0'),
    ('s = 0 (2), p = 0', lambda: rows(trailer=(0, 0, 12, 0)), 'refused 2 0'),
    ('p = 0, distance 37 (4)', lambda: rows(trailer=(1, 0, 12 + 24 + 1, 0)), 'refused 4 0'),
    ('p = 0; series row 1: M = 0 (5)', lambda: rows(series=CALL + '\n' + PUT.replace('M=5', 'M=0')), 'refused 5 1'),
    ('p = 0; series row 1: type 2 (6)', lambda: rows(series=CALL + '\n' + PUT.replace('put', 'type=2')), 'refused 6 1'),
    ('p = 0 and the rest in order: no fault', lambda: rows(), 'premium 0'),
]


def answer(example, file, expected):
    """The first line that margin prints, which must be the expected one."""
    return f'`{same(example, printed(file)[0], expected)}`'


def refusal_table(_):
    """The numbers of document 01's table and those of document 02, and more files with what margin prints for them."""
    lines = ['| Number | Given for | Example | `margin` prints |', '|---|---|---|---|']
    lines += [f'| {number} | {given} | {example} | {answer(example, file(), f"refused {number} {row}")} |'
              for number, given, example, file, row in REFUSALS]
    lines += ['| 12 | Line list: fewer than 2 × p entries | C calls `serpentgleam_margin`, `serpentgleam_pair`, '
              '`serpentgleam_amount_so_far` and `serpentgleam_take_apart` alone | |',
              '| 13 | Row asked for: p or above | C call `serpentgleam_position_amount` alone | |',
              '| 14 | Factors asked for: n above 1,800, or code not 0 to 3 | C call `serpentgleam_factors` alone | |',
              '| 16 | Day: series not in the account | C call `serpentgleam_day` alone | |',
              '| 17 | Day: high below low, close outside them, or one of the three not 1 to 10,000,000 | C call '
              '`serpentgleam_day` alone | |',
              "| 18 | Instalments: the lines in the list are not the account's first pairs | C calls "
              '`serpentgleam_pair`, `serpentgleam_amount_so_far` and `serpentgleam_take_apart` alone | |',
              '| 19 | Taking apart: k above the count | C call `serpentgleam_take_apart` alone | |',
              '| 20 | Load: seed not 1 to 2,147,483,646, p not 1 to 256, or a buffer below 36 + 32 × p bytes | C call '
              '`serpentgleam_load` alone | |',
              '', '| File | `margin` prints |', '|---|---|']
    lines += [f'| {example} | {answer(example, file(), expected)} |' for example, file, expected in OTHER_FILES]
    return '\n'.join(lines)
