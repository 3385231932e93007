"""Misreadings of the factors from the days, document 02, request 2; the form of a table is told in misreadings.py."""
FACTORS = 'factors.rs'
ROOT = '|s| s * s * YEAR >= n * 1_000_000_000_000)'
HIGH_RATE, LOW_RATE = 'ONE + row.i * (10_000 + row.f1)', 'ONE + row.i * (10_000 - row.f1)'
HIGH_DAY = 'high: least(most, |d| growth(d, YEAR, Rounding::Down) >= ga),'
LOW_DAY = 'low: least(most, |d| growth(d, YEAR, Rounding::Up) > gb) - 1,'
HIGH_GROWTH, LOW_GROWTH = 'growth(daily.high, n, Rounding::Up);', 'growth(daily.low, n, Rounding::Down);'
# Sixteen digits more than growth has are kept.
ROUNDED_ONCE = '''{
    let digits = 10_000_000_000_000_000;
    let one = i128::from(ONE);
    let grown = (0..n).fold(one * digits, |x, _| x * i128::from(daily.%s) / one);
    %s
};'''
HIGH_PRODUCT, LOW_PRODUCT = 'ONE_BESIDE_ROOT + row.f2 * s', 'ONE_BESIDE_ROOT - row.f2 * s'
HIGH_SUM = 'millionths(product + beside_product(row.f4), Rounding::Up)'
LOW_SUM = 'millionths(product - beside_product(row.f4), Rounding::Down)'
REFUSED = 'if days > MOST_DAYS || code > 3 {'
ROW = '&CODE_ROWS[code as usize]'
F3 = {'FCI': 500, 'FPI': 500, 'OFC': 2_000, 'OFV': 2_000}
ROWS = {'FCI': (2_100, 1_200, 1_100, 1_000), 'FPI': (2_100, 2_400, 2_200, 1_000),
        'OFC': (1_600, 1_500, 1_200, 1_500), 'OFV': (1_600, 3_000, 2_400, 1_500)}


def factors(*changes):
    return [(FACTORS, old, new) for old, new in changes]


def within(old, new, *texts):
    """The same change in each of these texts."""
    return factors(*[(text, text.replace(old, new)) for text in texts])


def code_row(name, i, f1, f2, f4):
    return f'{name}: CodeRow = CodeRow {{ i: {i:_}, f1: {f1:_}, f2: {f2:_}, f4: {f4:_} }};'


STEPS = [
    ('S rounded down', 'S the greatest whole number that is not above the root',
     factors((ROOT, ROOT.replace('>=', '>') + ' - 1'))),
    ('S to the nearest', 'S the whole number next to the root',
     factors((ROOT, '|s| (2 * s + 1) * (2 * s + 1) * YEAR >= 4 * n * 1_000_000_000_000)'))),
    ('S without root', 'F2 multiplied by n / 360 itself', factors((ROOT, '|s| s * YEAR >= n * 1_000_000)'))),
    ('365 days in S', 'a year of 365 days in S', within('YEAR', '365', ROOT)),
    ('365 days in the daily factors', '365 multiplications to the base rate', within('YEAR', '365', HIGH_DAY, LOW_DAY)),
    ('F1 left out', 'both base rates from i alone',
     within(' + row.f1', '', HIGH_RATE) + within(' - row.f1', '', LOW_RATE)),
    ('F1 turned round', 'ga with the lower rate, gb with the higher one',
     factors(('(high_rate(row), low_rate(row))', '(low_rate(row), high_rate(row))'))),
    ('F1 beside i', 'F1 added to the rate instead of multiplied by it',
     factors((HIGH_RATE, 'ONE + (row.i + row.f1) * 10_000'), (LOW_RATE, 'ONE + (row.i - row.f1) * 10_000'))),
    ('high daily factor rounded up', 'the 360 multiplications to ga rounded up', within('Down', 'Up', HIGH_DAY)),
    ('low daily factor rounded down', 'the 360 multiplications to gb rounded down', within('Up', 'Down', LOW_DAY)),
    ('high daily factor one less', 'the greatest d that does not reach ga', within('>= ga)', '>= ga) - 1', HIGH_DAY)),
    ('low daily factor one more', 'the least d that passes gb', within(' - 1', '', LOW_DAY)),
    ('high growth rounded down', 'the n multiplications of the high growth rounded down',
     within('Up', 'Down', HIGH_GROWTH)),
    ('low growth rounded up', 'the n multiplications of the low growth rounded up', within('Down', 'Up', LOW_GROWTH)),
    ('growth rounded once', 'growth rounded after its last multiplication alone', factors(
        (HIGH_GROWTH, ROUNDED_ONCE % ('high', '((grown + digits - 1) / digits) as i64')),
        (LOW_GROWTH, ROUNDED_ONCE % ('low', '(grown / digits) as i64')))),
    ('growth by simple interest', 'n / 360 of the yearly rate added, without multiplications', factors(
        (HIGH_GROWTH, 'ONE + ((high_rate(row) - ONE) * n + YEAR - 1) / YEAR;'),
        (LOW_GROWTH, 'ONE + (low_rate(row) - ONE) * n / YEAR;'))),
]
SUMS = [
    ('fa rounded down', 'fa rounded down', within('Up', 'Down', HIGH_SUM)),
    ('fb rounded up', 'fb rounded up', within('Down', 'Up', LOW_SUM)),
    ('F2 added in fb', 'fb with 1 + F2 × S', within('-', '+', LOW_PRODUCT)),
    ('F4 left out', 'nothing added to fa or taken from fb', factors(
        (HIGH_SUM, 'millionths(product, Rounding::Up)'), (LOW_SUM, 'millionths(product, Rounding::Down)'))),
    ('F4 in the product', 'growth × (1 + F2 × S + F4), and − for fb', factors(
        (HIGH_PRODUCT, HIGH_PRODUCT + ' + row.f4 * 1_000_000'), (LOW_PRODUCT, LOW_PRODUCT + ' - row.f4 * 1_000_000'),
        (HIGH_SUM, 'millionths(product, Rounding::Up)'), (LOW_SUM, 'millionths(product, Rounding::Down)'))),
    ('F2 and F4 exchanged', 'F4 multiplied by S, F2 added',
     within('f2', 'f4', HIGH_PRODUCT, LOW_PRODUCT) + within('f4', 'f2', HIGH_SUM, LOW_SUM)),
    ('F3 in place of F4', 'the column of the minimum margin taken for F4',
     factors(*[(code_row(name, *row), code_row(name, *row[:3], F3[name])) for name, row in ROWS.items()])),
]
CODES = [
    ('FPI and OFC exchanged', 'code 1 OFC and code 2 FPI', factors(('[FCI, FPI, OFC, OFV]', '[FCI, OFC, FPI, OFV]'))),
    ('code 4 accepted', 'code 4 taken like code 0',
     within('code > 3', 'code > 4', REFUSED) + within('usize', 'usize % 4', ROW)),
    ('1,801 days accepted', 'n refused above 1,801 alone', within('MOST_DAYS', 'MOST_DAYS + 1', REFUSED)),
    ('1,800 days refused', 'n refused from 1,800 on', within('days >', 'days >=', REFUSED)),
    ('no code refused', 'every code taken by its last two bits',
     within(' || code > 3', '', REFUSED) + within('usize', 'usize % 4', ROW)),
]
TABLE = STEPS + SUMS + CODES
