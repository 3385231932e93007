"""Misreadings of the choice of pairs, of lines and total; the form of a table is told in misreadings.py."""
PAIRING, LINES_AND_TOTAL = 'pairing.rs', 'lines.rs'
ROWS = '0..account.positions.len()'
LOOP_WRITTEN, LOOP_HELD = f'for written in {ROWS} {{', f'for held in {ROWS} {{'
LESS = 'Some((least, _, _, _)) => difference < least,'
LESS_IN_SERIES = '''Some((least, row, _, _)) => {
    (account.positions[written].series, difference) < (account.positions[row].series, least)
}'''
DIFFERENCE = '(account.positions[written].strike - account.positions[held].strike).abs()'
TAKEN = '''    let quantity = contracts_left[written].min(contracts_left[held]);
    contracts_left[written] -= quantity;
    contracts_left[held] -= quantity;
'''
LARGER_TAKEN = '''    let quantity = contracts_left[written].max(contracts_left[held]);
    contracts_left[written] = 0;
    contracts_left[held] = 0;
'''
PREMIUM = '.map(|row| premium_amount(account, row)).sum();'
PREMIUM_LEFT = '''.map(|row| premium_amount(account, row) / account.positions[row].quantity 
        * (contracts_left[row] + account.positions[row].blocked))
    .sum();'''
TOTAL = 'let total = pair_amounts + left_amounts + premium;'


def pairing(old, new):
    return [(PAIRING, old, new)]


def lines(old, new):
    return [(LINES_AND_TOTAL, old, new)]


def before_total(text):
    return lines(TOTAL, text + TOTAL)


CHOICE = [
    ('held row before written row', 'ties to the lowest held row, then the lowest written row',
     pairing(LOOP_WRITTEN, f'for held in {ROWS} {{') + pairing('        ' + LOOP_HELD, f'for written in {ROWS} {{')),
    ('highest written row', 'ties to the highest written row',
     pairing(LOOP_WRITTEN, f'for written in ({ROWS}).rev() {{')),
    ('highest held row', 'ties to the highest held row', pairing(LOOP_HELD, f'for held in ({ROWS}).rev() {{')),
    ('row order alone', 'the lowest rows taken, whatever the strike difference', pairing(LESS, 'Some(_) => false,')),
    ('series by series', 'the least strike difference within the lowest series', pairing(LESS, LESS_IN_SERIES)),
    ('difference with sign', 'PEw - PEh compared with its sign', pairing(DIFFERENCE, DIFFERENCE.replace('.abs()', ''))),
    ('greatest difference', 'the greatest strike difference taken', pairing(LESS, LESS.replace('<', '>'))),
    ('larger quantity', 'the pair takes the larger quantity left', pairing(TAKEN, LARGER_TAKEN)),
]
LINES = [
    ('left rows backwards', 'rows left in falling order',
     before_total('let left: Vec<Left> = left.into_iter().rev().collect();\n')),
    ('written rows left first', 'rows left by side, written before held', before_total(
        'let mut left = left;\nleft.sort_by_key(|l| account.positions[l.row].side == Side::Held);\n')),
    ('pairs in row order', 'pairs by written row instead of as made', before_total(
        'let mut pairs = pairs;\npairs.sort_by_key(|p| (p.written, p.held));\n')),
    ('premium in the line', 'the line of a held row with its premium', lines(
        'Side::Held => 0,', 'Side::Held => position.premium * series.m * quantity,')),
    ('premium of paired rows', 'no premium of a held row that stands in a pair', lines(
        PREMIUM, '.filter(|&row| contracts_left[row] == account.positions[row].free())' + PREMIUM)),
    ('premium of contracts left', 'premium of the contracts left alone', lines(PREMIUM, PREMIUM_LEFT)),
    ('total without premiums', 'premiums not in the total', lines(TOTAL, TOTAL.replace(' + premium', ''))),
]
TABLE = CHOICE + LINES
