"""Misreadings of the day, document 02, request 5; the form of a table is told in misreadings.py."""
DAY = 'day.rs'
IN_UP, IN_DOWN = 'Barrier::UpAndIn(iu) if high >= iu', 'Barrier::DownAndIn(id) if low <= id'
OUT_UP, OUT_DOWN = 'Barrier::UpAndOut(ou) if high >= ou', 'Barrier::DownAndOut(od) if low <= od'
PRICES = 'let (high, low) = (self.high as i64, self.low as i64);'
SERIES_TEST = 'if position.series as u64 == day.series {'
FLAGS = 'bytes[first_position + POSITION_BYTES * row + FLAGS_AT]'
SET = f'{FLAGS} |= day.flag_for(position);'
FIRST_SERIES = 'let first_series = bytes.len() - distance(series_count, position_count);'
PV = 'bytes[pv_at..pv_at + 4].copy_from_slice(&(day.close as u32).to_le_bytes());'
READ = '    let account = read_account(bytes)?;\n'
CHECK_16 = '''    if day.series >= account.series.len() as u64 {
        return Err(Refusal { number: 16, row: 0 });
    }
'''
CHECK_17 = '''    if !day.prices_right() {
        return Err(Refusal { number: 17, row: 0 });
    }
'''
APPLIED = '    Ok(())\n}'
IN_RANGE = '1 <= price && price <= HIGHEST_PRICE as u64'
NOT_BELOW_LOW, NOT_ABOVE_HIGH = '            && self.low <= self.close\n', '            && self.close <= self.high\n'
HIGH_IN_RANGE, LOW_IN_RANGE = '            && in_range(self.high)\n', '            && in_range(self.low)\n'


def day(*changes):
    return [(DAY, old, new) for old, new in changes]


def within(old, new, *texts):
    """The same change in each of these texts."""
    return day(*[(text, text.replace(old, new)) for text in texts])


def other_numbers(numbers):
    """Other numbers than those received, from the start."""
    return day((READ, f'    let day = &Day {{ {numbers}, ..*day }};\n' + READ))


TOUCHED = [
    ('high = IU', 'an up-and-in met exactly not taken as touched', within('>=', '>', IN_UP)),
    ('low = ID', 'a down-and-in met exactly not taken as touched', within('<=', '<', IN_DOWN)),
    ('high = OU', 'an up-and-out met exactly not taken as touched', within('>=', '>', OUT_UP)),
    ('low = OD', 'a down-and-out met exactly not taken as touched', within('<=', '<', OUT_DOWN)),
    ('high and low confused', 'up barriers compared with the low, down barriers with the high',
     day((PRICES, 'let (high, low) = (self.low as i64, self.high as i64);'))),
    ('touched at the close', 'barriers compared with the close alone',
     day((PRICES, 'let (high, low) = (self.close as i64, self.close as i64);'))),
    ('knocked out at the close', 'out barriers compared with the close alone',
     within('high', 'self.close as i64', OUT_UP) + within('low', 'self.close as i64', OUT_DOWN)),
    ('either price', 'a barrier touched by the high or by the low, from either side',
     day((IN_UP, IN_UP + ' || low <= iu'), (IN_DOWN, IN_DOWN + ' || high >= id'),
         (OUT_UP, OUT_UP + ' || low <= ou'), (OUT_DOWN, OUT_DOWN + ' || high >= od'))),
]
FLAG = [
    ('flag 1 of out barriers', 'flag 1 set where an out barrier is touched',
     day((OUT_UP + ' => FLAG_KNOCKED_OUT', OUT_UP + ' => FLAG_KNOCKED_IN'),
         (OUT_DOWN + ' => FLAG_KNOCKED_OUT', OUT_DOWN + ' => FLAG_KNOCKED_IN'))),
    ('flag 16 of in barriers', 'flag 16 set where an in barrier is touched',
     day((IN_UP + ' => FLAG_KNOCKED_IN', IN_UP + ' => FLAG_KNOCKED_OUT'),
         (IN_DOWN + ' => FLAG_KNOCKED_IN', IN_DOWN + ' => FLAG_KNOCKED_OUT'))),
    ('flags added', 'flag 1 or 16 added to a row that has it',
     day((SET, f'{FLAGS} = {FLAGS}.wrapping_add(day.flag_for(position));'))),
    ('flags turned round', 'flag 1 or 16 taken from a row that has it', within('|=', '^=', SET)),
    ('flags of the day alone', 'the other flags of a touched row lost',
     day((SET, f'if day.flag_for(position) > 0 {{ {FLAGS} = day.flag_for(position); }}'))),
    ('flags taken back', 'flag 1 or 16 taken from a row that the day does not touch',
     day((SET, f'{FLAGS} = {FLAGS} & !17 | day.flag_for(position);'))),
    ('flags of every series', 'rows of other series flagged too', day((SERIES_TEST, 'if true {'))),
    ('flags of written rows', 'held rows not flagged',
     day((SERIES_TEST, SERIES_TEST.replace(' {', ' && position.side == crate::account::Side::Written {')))),
    ('no cover sheet', 'the rows taken from the front of the file', day((FIRST_SERIES, 'let first_series = 0;'))),
]
PRICE = [
    ('PV not written', 'PV stays', day((PV, ''))),
    ('PV the high', 'PV becomes the high', within('day.close', 'day.high', PV)),
    ('PV the low', 'PV becomes the low', within('day.close', 'day.low', PV)),
    ('PV of every series', 'PV of all series becomes the close', day((
        'let pv_at = first_series + SERIES_BYTES * day.series as usize;',
        'for pv_at in (first_series..first_position).step_by(SERIES_BYTES) {'), (PV, PV + '}'))),
    ('two bytes of PV', 'the lower half of PV written alone',
     day((PV, 'bytes[pv_at..pv_at + 2].copy_from_slice(&(day.close as u16).to_le_bytes());'))),
]
REFUSED = [
    ('17 before 16', 'the prices looked at before the series', day((CHECK_16, CHECK_17 + CHECK_16))),
    ('16 before the reading', 'a series above 31 refused before the file is read',
     day((READ, CHECK_16.replace('account.series.len() as u64', '32') + READ))),
    ('17 before the reading', 'the prices looked at before the file is read', day((READ, CHECK_17 + READ))),
    ('row of 16', 'refusal 16 with the series for its row',
     within('row: 0', 'row: day.series as usize', CHECK_16)),
    ('series s', 'the series after the last one taken for the last', day(
        (CHECK_16, CHECK_16.replace('>=', '>')),
        (READ, READ + '    let in_account = day.series.min(account.series.len() as u64 - 1);\n'
         '    let past = day.series > account.series.len() as u64;\n'
         '    let day = &Day { series: if past { day.series } else { in_account }, ..*day };\n'))),
    ('close above the high', 'a close above the high let through', day((NOT_ABOVE_HIGH, ''))),
    ('close below the low', 'a close below the low let through', day((NOT_BELOW_LOW, ''))),
    ('close beside the high', 'a close at the high refused', within('<=', '<', NOT_ABOVE_HIGH)),
    ('close beside the low', 'a close at the low refused', within('<=', '<', NOT_BELOW_LOW)),
    ('high below low', 'high and low exchanged where the high is below the low',
     other_numbers('high: day.high.max(day.low), low: day.high.min(day.low)')),
    ('high = low', 'a day of one price refused', day(('self.high >= self.low', 'self.high > self.low'))),
    ('price 0', 'prices from 0', within('1 <= price', 'price <= price', IN_RANGE)),
    ('price 1', 'prices from 2', within('1 <= price', '1 < price', IN_RANGE)),
    ('price 10,000,000', 'prices below 10,000,000', within('price <= HIGHEST', 'price < HIGHEST', IN_RANGE)),
    ('price 10,000,001', 'prices to 10,000,001', within('as u64', 'as u64 + 1', IN_RANGE)),
    ('any high', 'the high not held to its range', day((HIGH_IN_RANGE, ''))),
    ('any low', 'the low not held to its range', day((LOW_IN_RANGE, ''))),
    ('series of 32 bits', 'the lower half of the series taken', other_numbers('series: day.series as u32 as u64')),
    ('series of 16 bits', 'the lowest two bytes of the series taken', other_numbers('series: day.series as u16 as u64')),
    ('prices of 32 bits', 'the lower halves of the prices taken', other_numbers(
        'high: day.high as u32 as u64, low: day.low as u32 as u64, close: day.close as u32 as u64')),
    ('refused, but written', 'flags and PV written where 17 is given',
     day((CHECK_17, ''), (APPLIED, CHECK_17 + APPLIED))),
]
TABLE = TOUCHED + FLAG + PRICE + REFUSED
