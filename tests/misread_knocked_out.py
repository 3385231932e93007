"""Misreadings of flag 16, document 02, request 5, in reading and margin; the form of a table is told in misreadings.py."""
ACCOUNT, LINES, POSITION, ROW, SPREAD = 'account.rs', 'lines.rs', 'position.rs', 'position_row.rs', 'spread.rs'
UNIT = 'return fine(terms.rebate);'
NEVER = 'if held.knocked_out || written.knocked_out {'
SAME_BUT_FLAG = '''if held.knocked_out || written.knocked_out {
        if *held == (Terms { knocked_out: held.knocked_out, ..*written }) {
            return Some(0);
        }
'''
FLAG_1 = 'if self.already_knocked_in {'
KNOCKED_IN = 'Terms { barrier: Barrier::None, rebate: 0, ..of_row }'
KNOCKED_OUT = 'knocked_out: self.already_knocked_out,'
PREMIUM = 'position.premium * account.series_of(row).m * position.quantity'
NO_LINE = 'if quantity == 0 {'
KNOWN = 'FLAG_BEFORE_ANNEX | FLAG_KNOCKED_OUT;'
KINDS = 'let may_be_knocked_out = self.kind == 3 || self.kind == 4;'
FREED = 'side_right || self.already_knocked_in() || self.already_knocked_out()'
IN_RANGE = 'within(1, self.barrier_price, HIGHEST_PRICE)'
FLAG = 'pub const FLAG_%s: u8 = %d;'


def kinds(condition):
    return [(ROW, KINDS, f'let may_be_knocked_out = {condition};')]


MARGIN = [
    ('MM with flag 16', 'MM kept in the unit margin of a row with flag 16',
     [(POSITION, UNIT, 'return max(series.minimum_margin(), fine(terms.rebate));')]),
    ('no REB with flag 16', 'unit margin 0 of a row with flag 16', [(POSITION, UNIT, 'return 0;')]),
    ('flag 16 not applied', 'the unit margin of a row with flag 16 as without it',
     [(POSITION, 'if terms.knocked_out {', 'if false {')]),
    ('flag 16 like flag 1', 'a row with flag 16 taken as one without barrier and with REB 0',
     [(ACCOUNT, FLAG_1, 'if self.already_knocked_in || self.already_knocked_out {'),
      (ACCOUNT, KNOCKED_IN, 'Terms { barrier: Barrier::None, rebate: 0, knocked_out: false, ..of_row }')]),
    ('flag 16 of held rows ignored', 'flag 16 looked at on written rows alone',
     [(ACCOUNT, KNOCKED_OUT, 'knocked_out: self.already_knocked_out && self.side == Side::Written,')]),
    ('premium with flag 16', 'no premium of a held row with flag 16',
     [(POSITION, PREMIUM, f'if position.already_knocked_out {{ 0 }} else {{ {PREMIUM} }}')]),
    ('no line of a held row', 'no line for a held row with flag 16',
     [(LINES, NO_LINE, 'if quantity == 0 || position.already_knocked_out && position.side == Side::Held {')]),
]
PAIRS = [
    ('flag 16 pairs', 'rows with flag 16 pair like others', [(SPREAD, NEVER, 'if false {')]),
    ('same rows with flag 16 pair', 'the same option pairs where both rows have flag 16',
     [(SPREAD, NEVER, 'if (held.knocked_out || written.knocked_out) && held != written {')]),
    ('same rows but for flag 16 pair', 'the same option pairs where one of the rows has flag 16',
     [(SPREAD, NEVER, SAME_BUT_FLAG)]),
    ('held flag 16 pairs', 'flag 16 on the held row does not bar a pair', [(SPREAD, NEVER, 'if written.knocked_out {')]),
    ('written flag 16 pairs', 'flag 16 on the written row does not bar a pair', [(SPREAD, NEVER, 'if held.knocked_out {')]),
]
READING = [
    ('flag 16 not free of 11', 'the side of PV asked where flag 16 is set',
     [(ROW, FREED, 'side_right || self.already_knocked_in()')]),
    ('flag 16 frees the range', 'the range of the barrier price free where flag 16 is set',
     [(ROW, IN_RANGE, f'self.already_knocked_out() || {IN_RANGE}')]),
    ('flag 16 unknown', 'flag 16 counted among the bits without a meaning', [(ROW, KNOWN, 'FLAG_BEFORE_ANNEX;')]),
    ('flag 16 with kind 0', 'flag 16 allowed with kind 0', kinds('[0, 3, 4].contains(&self.kind)')),
    ('flag 16 with kind 1', 'flag 16 allowed with kind 1', kinds('[1, 3, 4].contains(&self.kind)')),
    ('flag 16 with kind 2', 'flag 16 allowed with kind 2', kinds('[2, 3, 4].contains(&self.kind)')),
    ('flag 16 with kind 3 alone', 'flag 16 refused with kind 4', kinds('self.kind == 3')),
    ('flag 16 with kind 4 alone', 'flag 16 refused with kind 3', kinds('self.kind == 4')),
    ('flag 16 of a held row', 'flag 16 refused on a held row', kinds('self.kind >= 3 && self.side == 1')),
    ('flags 1 and 16', 'flag 1 taken as already knocked out, flag 16 as already knocked in',
     [(ROW, FLAG % ('KNOCKED_IN', 1), FLAG % ('KNOCKED_IN', 16)),
      (ROW, FLAG % ('KNOCKED_OUT', 16), FLAG % ('KNOCKED_OUT', 1))]),
    ('bit 32', 'the bit 32 taken as already knocked out', [(ROW, FLAG % ('KNOCKED_OUT', 16), FLAG % ('KNOCKED_OUT', 32))]),
]
TABLE = MARGIN + PAIRS + READING
