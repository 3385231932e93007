"""Misreadings of the account file's fields; the form of a table is told in misreadings.py."""
READER, ROW = 'reader.rs', 'position_row.rs'
SERIES_LOOP = 'series.push(read_series(row_bytes).map_err(|number| Refusal { number, row })?);'
POSITION_LOOP = '.push(read_position(row_bytes, &series).map_err(|number| Refusal { number, row })?);'
FLAG = 'pub const FLAG_%s: u8 = %d;'
READ = 'Ok(Account { series, positions })'
FLAGS_OF_NEXT_ROW = '''for row in 1..positions.len() {
    let next = positions[row];
    positions[row - 1].european = next.european;
    positions[row - 1].opened_before_annex = next.opened_before_annex;
}
'''


def flags_mixed_up(name, bit, other, other_bit):
    return [(ROW, FLAG % (name, bit), FLAG % (name, other_bit)), (ROW, FLAG % (other, other_bit), FLAG % (other, bit))]


TABLE = [
    ('rows from 1', 'the refused row counted from 1', [
        (READER, SERIES_LOOP, SERIES_LOOP.replace('number, row }', 'number, row: row + 1 }')),
        (READER, POSITION_LOOP, POSITION_LOOP.replace('number, row }', 'number, row: row + 1 }'))]),
    ('rows of both tables', 'a position row counted from the first series row', [
        (READER, POSITION_LOOP, POSITION_LOOP.replace('number, row }', 'number, row: series_count + row }'))]),
    ('no cover sheet', 'the rows read from the front of the file', [
        (READER, 'let first_series = bytes.len() - distance(series_count, position_count);', 'let first_series = 0;')]),
    ('distance from the trailer', 'the distance counted without the trailer', [
        (READER, 'if stated_distance != distance(s, p) ||', 'if stated_distance + 12 != distance(s, p) ||')]),
    ('longest file', 'a file of 65,536 bytes refused', [
        (READER, 'bytes.len() > LONGEST_FILE', 'bytes.len() >= LONGEST_FILE')]),
    ('256 positions', 'p = 256 refused', [(READER, 'p > 256', 'p > 255')]),
    ('32 series', 's = 32 refused', [(READER, 's > 32', 's > 31')]),
    ('fb at most one', 'fb above 1,000,000 refused', [(READER, 'within(0, fb, fa)', 'within(0, fb, 1_000_000)')]),
    ('premium of a written row', 'a premium allowed on a written row', [
        (ROW, 'if self.is_written() { 0 } else { HIGHEST_PRICE }', 'HIGHEST_PRICE')]),
    ('PB at PE', 'a limiter equal to the strike allowed', [
        (ROW, 'strike < price', 'strike <= price'), (ROW, 'price < strike', 'price <= strike')]),
    ('barrier at PV', 'a barrier equal to PV allowed', [
        (ROW, 'barrier_price > series.pv', 'barrier_price >= series.pv'),
        (ROW, 'barrier_price < series.pv', 'barrier_price <= series.pv')]),
    ('flag 1 frees the range', 'the range of the barrier price free where flag 1 is set', [
        (ROW, 'within(1, self.barrier_price, HIGHEST_PRICE)',
         'self.already_knocked_in() || within(1, self.barrier_price, HIGHEST_PRICE)')]),
    ('flag 1 frees nothing', 'the side of PV asked where flag 1 is set', [
        (ROW, 'side_right || self.already_knocked_in()', 'side_right')]),
    ('flag 1 with any kind', 'flag 1 allowed with kinds 0, 3 and 4', [
        (ROW, 'may_be_knocked_in = self.kind == 1 || self.kind == 2;', 'may_be_knocked_in = true;')]),
    ('limiter at 0', 'a put with a limiter at 0 taken as one without limiter', [
        (ROW, 'if self.flag(FLAG_LIMITER) {', 'if self.flag(FLAG_LIMITER) && self.limiter_price > 0 {')]),
    ('flags 1 and 2', 'flag 1 taken as the limiter, flag 2 as already knocked in',
     flags_mixed_up('KNOCKED_IN', 1, 'LIMITER', 2)),
    ('flags 2 and 4', 'flag 2 taken as European, flag 4 as the limiter', flags_mixed_up('LIMITER', 2, 'EUROPEAN', 4)),
    ('flags 1 and 4', 'flag 1 taken as European, flag 4 as already knocked in',
     flags_mixed_up('KNOCKED_IN', 1, 'EUROPEAN', 4)),
    ('flags of the next row', 'flags 4 and 8 taken from the row after', [(READER, READ, FLAGS_OF_NEXT_ROW + READ)]),
    ('other flags', 'the three bits without a meaning not looked at', [
        (ROW, 'self.flags & !known == 0\n            && ', '')]),
]
