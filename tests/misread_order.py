"""Misreadings of the order of refusals; the form of a table is told in misreadings.py."""
READER, ROW = 'reader.rs', 'position_row.rs'
TRAILER_2 = '''    if s == 0 || s > 32 || p > 256 || last_four != [0, 0, 0, 0] {
        return Err(2);
    }
'''
TRAILER_4 = '''    if stated_distance != distance(s, p) || stated_distance > bytes.len() {
        return Err(4);
    }
'''
SERIES_5 = '''    if !in_range {
        return Err(5);
    }
'''
SERIES_6 = '''    if spare != [0, 0, 0] {
        return Err(6);
    }
    let option_type = match type_byte {
        0 => OptionType::Call,
        1 => OptionType::Put,
        _ => return Err(6),
    };
'''
CHECK = '''    if !fields.%s {
        return Err(%d);
    }
'''
CHECK_7 = CHECK % ('codes_right(all_series.len())', 7)
CHECK_8 = CHECK % ('numbers_right()', 8)
CHECK_9 = CHECK % ('limiter_right(series)', 9)
CHECK_10 = CHECK % ('price_right()', 10)
CHECK_11 = CHECK % ('side_of_pv_right(series)', 11)
SERIES_LOOP = '''        series.push(read_series(row_bytes).map_err(|number| Refusal { number, row })?);
'''
POSITION_LOOP = '''        positions
            .push(read_position(row_bytes, &series).map_err(|number| Refusal { number, row })?);
'''
COLLECT_SERIES = '''        match read_series(row_bytes) {
            Ok(one) => series.push(one),
            Err(number) => faults.push((number, row)),
        }
'''
COLLECT_POSITIONS = COLLECT_SERIES.replace('read_series(row_bytes)', 'read_position(row_bytes, &series)').replace(
    'series.push', 'positions.push')
LEAST_FAULT = '''    if let Some(&(number, row)) = faults.iter().min() {
        return Err(Refusal { number, row });
    }
'''
FAULTS = '    let mut faults: Vec<(i64, usize)> = Vec::new();\n'
KEEP_SERIES_FAULT = '''        series.push(read_series(row_bytes).unwrap_or_else(|number| {
            faults.push((number, row));
            let option_type = if row_bytes[20] == 1 { OptionType::Put } else { OptionType::Call };
            Series { pv: u32_at(row_bytes, 0), fa: 0, fb: 0, f3: 0, m: 0, option_type }
        }));
'''
SERIES_START = '    let mut series = Vec::with_capacity(series_count);\n'
POSITIONS_START = '    let mut positions = Vec::with_capacity(position_count);\n'
READ = '    Ok(Account { series, positions })\n'
FILE_TOO_SHORT = '''    if distance(s, p) > bytes.len() {
        return Err(4);
    }
'''
DISTANCE_AFTER_SERIES = '''    let stated_distance = u32_at(bytes, bytes.len() - 8) as usize;
    if stated_distance != distance(series_count, position_count) {
        return Err(Refusal { number: 4, row: 0 });
    }
'''


def earlier(anchor, check):
    """The check made once more before the anchor, so that its refusal comes first."""
    return [(ROW, anchor, check + anchor)]


def swapped(first, second):
    return [(READER, first, ''), (READER, second, second + first)]


TABLE = [
    ('2 after 4', 'the distance before the counts and the last bytes', [
        (READER, TRAILER_4, ''), (READER, TRAILER_2, TRAILER_4 + TRAILER_2)]),
    ('4 after 6', 'the distance after the series rows', [
        (READER, TRAILER_4, FILE_TOO_SHORT), (READER, POSITIONS_START, DISTANCE_AFTER_SERIES + POSITIONS_START)]),
    ('5 after 6', 'type and spare bytes before PV, fa, fb, f3 and M', swapped(SERIES_5, '\n' + SERIES_6)),
    ('7 after 8', 'Q, PE, REB and premium before series, side, kind and flags', earlier(CHECK_7, CHECK_8)),
    ('8 after 9', 'PB before Q, PE, REB and premium', earlier(CHECK_8, CHECK_9)),
    ('8 after 10', 'barrier price before Q, PE, REB and premium', earlier(CHECK_8, CHECK_10)),
    ('9 after 10', 'barrier price before PB', earlier(CHECK_9, CHECK_10)),
    ('9 after 11', 'side of PV before PB', earlier(CHECK_9, CHECK_11)),
    ('10 after 11', 'side of PV before the range of the barrier price', earlier(CHECK_10, CHECK_11)),
    ('positions before series', 'series rows checked after position rows', [
        (READER, SERIES_START, FAULTS + SERIES_START), (READER, SERIES_LOOP, KEEP_SERIES_FAULT),
        (READER, READ, LEAST_FAULT.replace('.min()', '.next()') + READ)]),
    ('series rows kind by kind', 'every 5 before every 6, whatever the row', [
        (READER, SERIES_START, FAULTS + SERIES_START), (READER, SERIES_LOOP, COLLECT_SERIES),
        (READER, POSITIONS_START, LEAST_FAULT + POSITIONS_START)]),
    ('position rows kind by kind', 'every 7 before every 8 and so on, whatever the row', [
        (READER, POSITIONS_START, FAULTS + POSITIONS_START), (READER, POSITION_LOOP, COLLECT_POSITIONS),
        (READER, READ, LEAST_FAULT + READ)]),
    ('last fault wins', 'the last faulty position row given instead of the first', [
        (READER, POSITIONS_START, FAULTS + POSITIONS_START), (READER, POSITION_LOOP, COLLECT_POSITIONS),
        (READER, READ, LEAST_FAULT.replace('.min()', '.last()') + READ)]),
]
