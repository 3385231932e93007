"""Misreadings of contracts blocked as collateral, document 02, request 9: in reading, pairs, lines and total (TABLE), in the
amount for one position (AMOUNTS), in the day (DAYS), and in instalments and pairs taken apart (INSTALMENTS); the form of a
table is told in misreadings.py.
"""
DAY, INSTALMENT_CALLS, LINES, PAIRING = 'day.rs', 'instalments.rs', 'lines.rs', 'pairing.rs'
POSITION, READER, ROW = 'position.rs', 'reader.rs', 'position_row.rs'
THREE_BYTES = 'u32::from_le_bytes([bytes[at], bytes[at + 1], bytes[at + 2], 0])'
CHECK_7, CHECK_8 = '(!self.is_written() || self.blocked == 0)', 'self.blocked <= self.quantity'
ROW_FIELD = 'blocked: fields.blocked,'
OF_HELD_ROW = (ROW_FIELD, 'blocked: if fields.is_written() { 0 } else { fields.blocked },')
AT_MOST_Q = (ROW_FIELD, 'blocked: fields.blocked.min(fields.quantity),')
CHECK_8_OF_HELD_ROW = (CHECK_8, f'(self.is_written() || {CHECK_8})')
NO_CHECK_8 = (f'            && {CHECK_8}\n', '')
HELD_ROW = 'position.side == crate::account::Side::Held'
CODES = '    if !fields.codes_right(all_series.len()) {\n'
READ = '    Ok(Position {\n'
CHECK_12 = 'list.len() < 2 * account.positions.len()'
FREE = 'position.free()'
LEFT = 'let quantity = contracts_left[row] + position.blocked;'
# Whatever contracts pairs may use: the left line has Q less what pairs took.
ALL_LEFT = 'let quantity = contracts_left[row] + position.quantity - crate::pairing::contracts(account)[row];'
LEFT_PUSHED = 'left.push(Left { row, quantity, amount });'
TOTAL = 'let total = pair_amounts + left_amounts + premium;'
ROWS_LEFT_OVER = 'if contracts_left[written] == 0 || contracts_left[held] == 0 {'
BEST = 'best.map(|(_, written, held, spread)| (written, held, spread))'
PREMIUM = 'position.premium * account.series_of(row).m * position.quantity'
PREMIUM_OF_FREE, PREMIUM_OF_BLOCKED = [
    PREMIUM.replace('position.quantity', contracts) for contracts in ('position.free()', 'position.blocked')]
IN_SERIES = 'account.positions.iter().filter(|p| p.series == position.series).map(|p| p.blocked).sum::<i64>()'
CHOICE = '''        pairs.push(make_pair(account, contracts_left, written, held, spread));
    }
'''


def row(*changes):
    return [(ROW, old, new) for old, new in changes]


def usable(text):
    """Other contracts that pairs may use, given a position as `position`."""
    return [(PAIRING, FREE, text), (LINES, LEFT, ALL_LEFT)]


def left(text):
    """Another quantity in the left line, given that by the rules as `all`."""
    return [(LINES, LEFT, f'let all = contracts_left[row] + position.blocked;\n        let quantity = {text};')]


def checked_last(text):
    return row((READ, f'    if {text} {{\n        return Err(8);\n    }}\n' + READ), NO_CHECK_8)


def entries_needed(text):
    return [(LINES, CHECK_12, text)]


NUMBERS = [
    ('big-endian', 'the number blocked read with its highest byte first',
     [(READER, THREE_BYTES, 'u32::from_be_bytes([0, bytes[at], bytes[at + 1], bytes[at + 2]])')]),
    ('blocked of 16 bits', 'byte 7 not read', [(READER, THREE_BYTES, THREE_BYTES.replace('bytes[at + 2]', '0'))]),
    ('blocked of 8 bits', 'bytes 6 and 7 not read',
     [(READER, THREE_BYTES, THREE_BYTES.replace('bytes[at + 2]', '0').replace('bytes[at + 1]', '0'))]),
    ('blocked from byte 6', 'byte 5 not read', [(READER, THREE_BYTES, THREE_BYTES.replace('bytes[at]', '0'))]),
    ('blocked refused', 'bytes 5 to 7 of a held row refused with 7 unless they are zero',
     row((CHECK_7, 'self.blocked == 0'))),
    ('blocked on a written row', 'bytes 5 to 7 of a written row not looked at',
     row((CHECK_7, 'true'), CHECK_8_OF_HELD_ROW, OF_HELD_ROW)),
    ('blocked up to Q on a written row', 'up to Q blocked on a written row, which pairs then do not use',
     row((CHECK_7, 'true'))),
    ('written row refused with 8', 'a number on a written row refused with 8',
     row((CHECK_7, 'true'), (CHECK_8, f'{CHECK_7} && {CHECK_8}'))),
    ('byte 5 of a written row', 'bytes 6 and 7 of a written row not looked at',
     row((CHECK_7, '(!self.is_written() || self.blocked & 255 == 0)'), CHECK_8_OF_HELD_ROW, OF_HELD_ROW)),
    ('above Q', 'a number above Q taken for Q',
     row(NO_CHECK_8, AT_MOST_Q)),
    ('up to 100,000', 'a number up to 100,000 taken for Q where it is above it',
     row((CHECK_8, 'self.blocked <= 100_000'), AT_MOST_Q)),
    ('all blocked refused', 'a number of Q refused', row((CHECK_8, 'self.blocked < self.quantity.max(1)'))),
    ('above Q refused with 7', 'a number above Q refused with 7',
     row((CHECK_7, f'{CHECK_7} && (self.blocked == 0 || {CHECK_8})'))),
    ('8 of blocked before 7', 'a number above Q refused before series, side, kind and flags are looked at',
     row((CODES, '    if fields.side == 0 && fields.blocked > fields.quantity {\n        return Err(8);\n    }\n' + CODES))),
    ('8 of blocked after 11', 'a number above Q refused after PB and the barrier are looked at',
     checked_last('fields.blocked > fields.quantity')),
]
PAIRS = [
    ('blocked ones paired', 'pairs use all contracts', usable('position.quantity')),
    ('blocked rows never paired', 'no contract of a row used where some are blocked',
     usable('if position.blocked > 0 { 0 } else { position.quantity }')),
    ('wholly blocked rows alone', 'all contracts used where not all are blocked',
     usable('if position.free() == 0 { 0 } else { position.quantity }')),
    ('blocked for used', 'the number blocked taken for that which pairs may use',
     usable(f'if {HELD_ROW} {{ position.blocked }} else {{ position.quantity }}')),
    ('one more used', 'one blocked contract used', usable('position.quantity - (position.blocked - 1).max(0)')),
    ('one less used', 'one contract less used than may be, where some are blocked',
     usable('(position.free() - position.blocked.min(1)).max(0)')),
    ('taken from written rows', 'the contracts blocked in a series taken from its written rows, not from the held ones',
     usable(f'if {HELD_ROW} {{ position.quantity }} else {{ (position.quantity - {IN_SERIES}).max(0) }}')),
    ('blocked by the series', 'the contracts blocked in a series taken from each of its held rows',
     usable(f'if {HELD_ROW} {{ (position.quantity - {IN_SERIES}).max(0) }} else {{ position.quantity }}')),
    ('blocked ones used last', 'blocked contracts used where no other pair is allowed',
     [(PAIRING, CHOICE, CHOICE + '''    for (left, position) in contracts_left.iter_mut().zip(&account.positions) {
        *left += position.blocked;
    }
    while let Some((written, held, spread)) = next_pair(account, contracts_left) {
''' + CHOICE), (LINES, LEFT, 'let quantity = contracts_left[row];')]),
    ('blocked rows still nearest', 'no further pair where the nearest row has blocked contracts alone',
     [(PAIRING, ROWS_LEFT_OVER, ROWS_LEFT_OVER.replace('left[held]', 'left[held] + account.positions[held].blocked')),
      (PAIRING, BEST, BEST + '.filter(|pair| contracts_left[pair.1] > 0)')]),
    ('blocked with barriers', 'the number looked at only on rows without a barrier',
     usable('if position.barrier == crate::account::Barrier::None { position.free() } else { position.quantity }')),
]
LEFT_LINES = [
    ('left line without blocked', 'blocked contracts not in the left line', left('contracts_left[row]')),
    ('blocked alone in the left line', 'contracts that pairs may still use not in the left line of a row with blocked ones',
     left('if position.blocked > 0 { position.blocked } else { all }')),
    ('Q in the left line', 'all contracts of a row with blocked ones in its left line',
     left('if position.blocked > 0 { position.quantity } else { all }')),
    ('no left line of a spent row', 'no left line where pairs took all that they may use',
     left('if contracts_left[row] == 0 && position.free() > 0 { 0 } else { all }')),
    ('no left line of a blocked row', 'no left line where all contracts are blocked',
     left('if position.free() == 0 { 0 } else { all }')),
    ('blocked in a line of their own', 'a left line for blocked contracts behind that for the others',
     [(LINES, LEFT, '''if position.blocked > 0 && contracts_left[row] > 0 {
            left.push(Left { row, quantity: contracts_left[row], amount: 0 });
        }
        let quantity = if position.blocked > 0 { position.blocked } else { contracts_left[row] };''')]),
    ('blocked rows last', 'the left lines of rows with blocked contracts behind all others',
     [(LINES, TOTAL, 'let mut left = left;\nleft.sort_by_key(|l| account.positions[l.row].blocked > 0);\n' + TOTAL)]),
    ('at most p lines', 'lines behind the first p left out', [(LINES, TOTAL, '''let mut left = left;
left.truncate(account.positions.len() - pairs.len());
''' + TOTAL)]),
    ('blocked in the amount', 'the number blocked given as the amount of a held row\'s left line',
     [(LINES, LEFT_PUSHED, 'let amount = amount + position.blocked;\n        ' + LEFT_PUSHED)]),
]
PREMIUMS = [
    ('premium without blocked', 'premiums of the contracts that are not blocked alone',
     [(POSITION, PREMIUM, PREMIUM_OF_FREE)]),
    ('no premium of a blocked row', 'no premium where all contracts are blocked',
     [(POSITION, PREMIUM, f'if position.free() == 0 {{ 0 }} else {{ {PREMIUM} }}')]),
    ('blocked premiums twice', 'premiums of blocked contracts counted once more',
     [(POSITION, PREMIUM, PREMIUM.replace('position.quantity', '(position.quantity + position.blocked)'))]),
]
TABLE = NUMBERS + PAIRS + LEFT_LINES + PREMIUMS

HELD = 'Side::Held => premium_amount(account, row),'
AMOUNTS = [
    ('held position without blocked', 'the premium of the contracts that are not blocked, as an amount', [(
        POSITION, HELD, f'Side::Held => {PREMIUM_OF_FREE},')]),
    ('held position of blocked ones', 'the premium of the blocked contracts, as an amount where there are some', [(
        POSITION, HELD, f'Side::Held if position.blocked > 0 => {PREMIUM_OF_BLOCKED},\n        {HELD}')]),
    ('wholly blocked position', 'no amount where all contracts are blocked', [(
        POSITION, HELD, f'Side::Held if position.free() == 0 => 0,\n        {HELD}')]),
]

SET = 'bytes[first_position + POSITION_BYTES * row + FLAGS_AT] |= day.flag_for(position);'


def and_cleared(condition, places):
    """After the flags, where this holds, bytes made zeros: these places counted from the flags."""
    cleared = f'bytes[first_position + POSITION_BYTES * row + FLAGS_AT..][{places}].fill(0);'
    return [(DAY, SET, f'{SET}\n            if {condition} {{\n                {cleared}\n            }}')]


DAYS = [
    ('blocked released', 'no contracts blocked any more in the rows of the series', and_cleared('true', '1..4')),
    ('blocked released by a touch', 'no contracts blocked any more in a row that the day flags',
     and_cleared('day.flag_for(position) > 0', '1..4')),
    ('blocked released by a knock-out', 'no contracts blocked any more in a row that the day knocks out',
     and_cleared('day.flag_for(position) == FLAG_KNOCKED_OUT', '1..4')),
    ('flags of two bytes', 'flags written with the byte behind them',
     and_cleared('day.flag_for(position) > 0', '1..2')),
    ('blocked raised', 'the flag written into byte 5 too', [(DAY, SET, SET + '\n            ' + SET.replace(
        'FLAGS_AT]', 'FLAGS_AT + 1]'))]),
    ('day of any number', 'a number above Q let through', row(NO_CHECK_8)),
    ('day of written rows', 'bytes 5 to 7 of a written row not looked at', row((CHECK_7, 'true'), CHECK_8_OF_HELD_ROW)),
    ('day of none blocked', 'a file with blocked contracts refused', row((CHECK_7, 'self.blocked == 0'))),
]

BEGUN = 'let contracts_left = contracts(&account);'
READ_HALF = '    let mut half = read_half_paired(bytes, list, count)?;\n'
MAKE = '    let made = half.make(allowance);\n'
SO_FAR = 'Ok(read_half_paired(bytes, list, count)?.amount())'
AMOUNT = 'margin_with(&self.account, self.pairs.clone(), &self.contracts_left).total'
CHECK_19 = '    if k > count {\n'
# The list with entries more, where there is one for every row.
LONGER = '''    let mut longer = list.to_vec();
    let rows = read_account(bytes)?.positions.len();
    if list.len() >= rows {
        longer.resize(list.len().max(2 * rows), [0; 5]);
    }
'''
READ_LONGER = LONGER + READ_HALF.replace('list', '&longer')


def of_instalments(*changes):
    return [(INSTALMENT_CALLS, old, new) for old, new in changes]


def amount_less(text):
    return of_instalments((AMOUNT, f'{AMOUNT} - self.account.positions.iter().map(|p| {text}).sum::<i64>()'))


SERIES_M = 'self.account.series[p.series].m'
INSTALMENTS = [
    ('12 below p', 'a list of p entries long enough', entries_needed('list.len() < account.positions.len()')),
    ('12 below 2p - 1', 'a list for the most lines that there can be long enough',
     entries_needed('list.len() + 1 < 2 * account.positions.len()')),
    ('12 at 2p', 'a list of 2p entries refused', entries_needed('list.len() <= 2 * account.positions.len()')),
    ('12 below 512', 'a list refused that is not long enough for every account', entries_needed('list.len() < 512')),
    ('12 by the rows with blocked', 'an entry for each row, and another for each with blocked contracts', entries_needed(
        'list.len() < account.positions.len() + account.positions.iter().filter(|p| p.blocked > 0).count()')),
    ('2p with blocked alone', 'a list of p entries long enough where none are blocked', entries_needed(
        'list.len() < account.positions.len() * (1 + usize::from(account.positions.iter().any(|p| p.blocked > 0)))')),
    ('12 for the lines', 'a list long enough that has room for the lines of the margin', entries_needed(
        '{ let m = margin(account); list.len() < m.pairs.len() + m.left.len() }')),
    ('shorter list to pair', 'a list of p entries long enough for pairs', of_instalments(
        (READ_HALF + '    let before = half.pairs.len();\n    let made', READ_LONGER +
         '    let before = half.pairs.len();\n    let made'))),
    ('shorter list for the amount', 'a list of p entries long enough for the amount', of_instalments(
        (SO_FAR, LONGER.lstrip() + '    ' + SO_FAR.replace('list', '&longer')))),
    ('shorter list to take apart', 'a list of p entries long enough for taking apart',
     of_instalments((READ_HALF + CHECK_19, READ_LONGER + CHECK_19))),
    ('blocked ones paired in instalments', 'instalments use all contracts',
     of_instalments((BEGUN, 'let contracts_left = account.positions.iter().map(|p| p.quantity).collect();'))),
    ('blocked in the first call', 'the number looked at only where no pair is made yet', of_instalments((MAKE, '''\
    if count > 0 {
        for row in 0..half.account.positions.len() {
            half.contracts_left[row] += half.account.positions[row].blocked;
        }
    }
''' + MAKE))),
    ('so far without blocked premiums', 'the amount so far without the premiums of blocked contracts',
     amount_less(f'p.premium * {SERIES_M} * p.blocked')),
    ('half of the blocked premiums', 'the amount so far without the premiums of blocked contracts of rows in pairs',
     of_instalments((AMOUNT, f'{AMOUNT} - self.pairs.iter().map(|pair| {{ let p = &self.account.positions[pair.held]; '
                             f'p.premium * {SERIES_M} * p.blocked }}).sum::<i64>()'))),
    ('so far without wholly blocked rows', 'the amount so far without the premiums of wholly blocked rows',
     amount_less(f'p.premium * {SERIES_M} * if p.free() == 0 {{ p.quantity }} else {{ 0 }}')),
]
