"""Misreadings of accounts without positions, document 02, request 1; the form of a table is told in misreadings.py."""
READER, OUTPUT = 'reader.rs', 'output.rs'
COUNTS = 'if s == 0 || s > 32 || p > 256 || last_four != [0, 0, 0, 0] {'
DISTANCE = 'if stated_distance != distance(s, p) || stated_distance > bytes.len() {'
REFUSED_3 = '''if p == 0 {
    return Err(3);
}
'''
SERIES_START = '    let mut series = Vec::with_capacity(series_count);\n'
NOTHING_READ = '''    if position_count == 0 {
        return Ok(Account { series: Vec::new(), positions: Vec::new() });
    }
'''
NUMBER = 'refusal.number, refusal.row'
PREMIUM_LINE = 'text += &format!("premium {}\\n", answer.premium);'


def reader(old, new):
    return [(READER, old, new)]


TABLE = [
    ('p = 0 refused', 'an account without positions refused with 3', reader(DISTANCE, REFUSED_3 + DISTANCE)),
    ('p = 0 refused with 2', 'an account without positions refused with 2',
     reader(COUNTS, COUNTS.replace('p > 256', 'p == 0 || p > 256'))),
    ('s = 0 with p = 0', 'no series needed where there are no positions',
     reader(COUNTS, COUNTS.replace('s == 0', '(s == 0 && p > 0)'))),
    ('last bytes with p = 0', 'the last four bytes not looked at where there are no positions',
     reader(COUNTS, COUNTS.replace('last_four', 'p > 0 && last_four'))),
    ('distance with p = 0', 'the stated distance not looked at where there are no positions',
     reader(DISTANCE, 'if (p > 0 && stated_distance != distance(s, p)) || distance(s, p) > bytes.len() {')),
    ('series rows with p = 0', 'the series rows not read where there are no positions',
     reader(SERIES_START, NOTHING_READ + SERIES_START)),
    ('premium line with p = 0', 'no line for the premium where there are no positions',
     [(OUTPUT, PREMIUM_LINE, 'if !account.positions.is_empty() { ' + PREMIUM_LINE + ' }')]),
    ('numbers after 3', 'the refusals after 3 numbered one lower, now that 3 is withdrawn',
     [(OUTPUT, NUMBER, 'refusal.number - i64::from(refusal.number > 3), refusal.row')]),
]
