"""Misreadings of calls in whole reais, document 02, request 6, in lines and total; the form of a table is told in
misreadings.py. Those of the rounding itself, up, down and to the nearest, are in misread_positions.py.
"""
LINES, PAIRING, POSITION = 'lines.rs', 'pairing.rs', 'position.rs'
ONE_REAL = 'let one_real = real * million;'
IN_CENTAVOS = '((crate::position::exact_%s + 999_999) / 1_000_000) as i64'
OF_PAIR_LINE, OF_LEFT_LINE = 'amount(spread, account.series_of(written).m, quantity)', 'amount(unit, series.m, quantity)'
PAIR_LINE = [(PAIRING, OF_PAIR_LINE, IN_CENTAVOS % OF_PAIR_LINE)]
LEFT_LINE = [(LINES, OF_LEFT_LINE, IN_CENTAVOS % OF_LEFT_LINE)]
PREMIUM = 'position.premium * account.series_of(row).m * position.quantity'
PREMIUMS = '.map(|row| premium_amount(account, row)).sum();'
TOTAL = 'let total = pair_amounts + left_amounts + premium;'
EXACT_TOTAL = '''let of_pairs: i128 = pairs.iter().map(|p| exact_of_pair(account, p.written, p.held, p.quantity)).sum();
let of_left: i128 = left.iter().map(|l| exact_of_left(account, l.row, l.quantity)).sum();
let total = ((of_pairs + of_left + 99_999_999) / 100_000_000 * 100) as i64 + premium;
'''
ALLOWED = 'if alone > spread {'
DIFFERENCE = '            let difference =\n'
LOWERS = '''let series = account.series_of(written);
let alone = written_unit_margin(series, &account.positions[written].terms());
let [all, paired] = [contracts_left[written], contracts_left[written].min(contracts_left[held])];
if %s <= %s {
    continue;
}
'''
OF_PAIR = 'amount(spread, series.m, paired)'


def up_to_a_real(text):
    return f'({text} + 99) / 100 * 100'


def total(text):
    return [(LINES, TOTAL, f'let total = {text};')]


def only_where_lower(before, after):
    """A pair made only where its amounts are lower than those without it."""
    return [(PAIRING, DIFFERENCE, LOWERS % (before, after) + DIFFERENCE)]


ROUNDED = [
    ('one centavo', 'the amount rounded up to one centavo, as before request 6',
     [(POSITION, ONE_REAL, 'let real = 1;\n' + ONE_REAL)]),
    ('reais for centavos', 'the amount given as a number of reais', [(POSITION, '(reais * real) as i64', 'reais as i64')]),
    ('0 raised', 'an amount of 0 raised to 100',
     [(POSITION, 'if whole * one_real == exact {', 'if exact > 0 && whole * one_real == exact {')]),
    ('pair lines in centavos', 'the amount of a pair rounded to one centavo', PAIR_LINE),
    ('left lines in centavos', 'the amount of a row left rounded to one centavo', LEFT_LINE),
]
TOTALS = [
    ('total in place of the lines', 'lines rounded to one centavo, their sum to a real',
     PAIR_LINE + LEFT_LINE + total(up_to_a_real('pair_amounts + left_amounts') + ' + premium')),
    ('total rounded once', 'the exact amounts of the lines summed for the total, and then rounded',
     [(LINES, TOTAL, EXACT_TOTAL)]),
    ('total rounded too', 'the total, premiums and all, rounded up to a real once more',
     total(up_to_a_real('pair_amounts + left_amounts + premium'))),
    ('premiums in reais', 'the sum of the premiums rounded up to a real',
     [(LINES, 'let premium = (0..', 'let premium: i64 = (0..'),
      (LINES, PREMIUMS, f'{PREMIUMS}\nlet premium = {up_to_a_real("premium")};')]),
    ('each premium in reais', 'the premium of each row rounded up to a real',
     [(POSITION, PREMIUM, up_to_a_real(PREMIUM))]),
    ('each premium down to reais', 'the premium of each row rounded down to a real',
     [(POSITION, PREMIUM, f'{PREMIUM} / 100 * 100')]),
]
PAIRS = [
    ('margins in reais', 'margins compared after rounding to a real, for one contract',
     [(PAIRING, ALLOWED, 'if amount(alone, series.m, 1) > amount(spread, series.m, 1) {')]),
    ('pairs of a lower amount', 'a pair made only where its amount is lower than that of its written contracts',
     only_where_lower('amount(alone, series.m, paired)', OF_PAIR)),
    ('pairs that lower the total', 'a pair made only where it lowers the amounts of its written row',
     only_where_lower('amount(alone, series.m, all)', f'{OF_PAIR} + amount(alone, series.m, all - paired)')),
]
TABLE = ROUNDED + TOTALS + PAIRS
