"""Misreadings of the amount for one position that no line shows, document 02, request 6; the form of a table is told in
misreadings.py.
"""
POSITION = 'position.rs'
HELD = 'Side::Held => premium_amount(account, row),'
WRITTEN = 'amount(unit, series.m, position.quantity)'
IN_CENTAVOS = f'((exact_{WRITTEN} + 999_999) / 1_000_000) as i64'


def of_held_row(amount):
    return [(POSITION, HELD, f'Side::Held => {amount},')]


TABLE = [
    ('held position in reais', 'the premium rounded up to a real, as an amount', of_held_row(
        '(premium_amount(account, row) + 99) / 100 * 100')),
    ('held position down to reais', 'the premium rounded down to a real, as an amount', of_held_row(
        'premium_amount(account, row) / 100 * 100')),
    ('held position of 0', 'a held position without an amount, like its left line', of_held_row('0')),
    ('written position in centavos', 'the amount of a written position rounded to one centavo, lines to a real',
     [(POSITION, WRITTEN, IN_CENTAVOS)]),
]
