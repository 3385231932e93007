"""Misreadings of who may pair and of the unit spread margin; the form of a table is told in misreadings.py."""
ACCOUNT, PAIRING, SPREAD = 'account.rs', 'pairing.rs', 'spread.rs'
ALLOWED = 'if alone > spread {'
EITHER_FLAG = 'self.european || self.opened_before_annex'
BOTH_MAY = 'let both_may = w.european_or_before_annex() && h.european_or_before_annex();'
BOTH_ALIKE = 'let both_may = w.european && h.european || w.opened_before_annex && h.opened_before_annex;'
SAME_SERIES = 'let same_series = w.series == h.series;'
AMOUNT = 'amount(spread, account.series_of(written).m, quantity)'
AMOUNT_OF_ONE = '''if account.positions[written].terms().barrier == crate::account::Barrier::None {
    amount(spread, account.series_of(written).m, quantity)
} else {
    amount(spread, 1, 1)
}'''
TERMS = 'unit_spread_margin(series, &h.terms(), &w.terms())?'
TERMS_BEFORE_FLAG_1 = '''unit_spread_margin(
    series,
    &crate::account::Position { already_knocked_in: false, ..*h }.terms(),
    &crate::account::Position { already_knocked_in: false, ..*w }.terms(),
)?'''
OD_ORDER, OU_ORDER = 'if od_held <= od_written', 'if ou_held >= ou_written'
OD_REACHED, OU_REACHED = 'series.low() <= fine(od_written)', 'series.high() >= fine(ou_written)'
D_LOWEST = 'let lowest = if reachable { fine(od_written) } else { series.low() };'
D_HIGHEST = 'let highest = if reachable { fine(ou_written) } else { series.high() };'
REBATE = 'let r = if held.barrier == written.barrier {'
HELD_REBATE = 'max(0, fine(written.rebate) - fine(held.rebate))'


def spread(old, new):
    return [(SPREAD, old, new)]


def pairing(old, new):
    return [(PAIRING, old, new)]


WHO_MAY_PAIR = [
    ('pairing at equal margins', 'a pair allowed where it does not lower the margin',
     pairing(ALLOWED, 'if alone >= spread {')),
    ('margins in centavos', 'margins compared after rounding to a centavo, for one contract',
     pairing(ALLOWED, 'if (alone * series.m + 999_999) / 1_000_000 > (spread * series.m + 999_999) / 1_000_000 {')),
    ('flag 8 ignored', 'only European rows pair', [(ACCOUNT, EITHER_FLAG, 'self.european')]),
    ('flag 4 ignored', 'only rows opened before the annex pair', [(ACCOUNT, EITHER_FLAG, 'self.opened_before_annex')]),
    ('both alike', 'both European, or both opened before the annex', pairing(BOTH_MAY, BOTH_ALIKE)),
    ('one is enough', 'one of the rows European or opened before the annex',
     pairing(BOTH_MAY, BOTH_MAY.replace('&&', '||'))),
    ('any series', 'rows of different series pair', pairing(SAME_SERIES, 'let same_series = true;')),
    ('flag 1 not applied to pairs', 'a row already knocked in compared with its barrier',
     pairing(TERMS, TERMS_BEFORE_FLAG_1)),
    ('ODh at least ODw', 'the order of down barriers turned round', spread(OD_ORDER, 'if od_held >= od_written')),
    ('ODh below ODw', 'equal down barriers do not pair', spread(OD_ORDER, 'if od_held < od_written')),
    ('OUh at most OUw', 'the order of up barriers turned round', spread(OU_ORDER, 'if ou_held <= ou_written')),
    ('OUh above OUw', 'equal up barriers do not pair', spread(OU_ORDER, 'if ou_held > ou_written')),
]
SPREAD_MARGIN = [
    ('same option needs margin', 'the same option not treated by itself', spread('if held == written {', 'if false {')),
    ('strikes turned round', 'PEw - PEh for calls, PEh - PEw for puts',
     spread('OptionType::Call => fine(held.strike)', 'OptionType::Put => fine(held.strike)')
     + spread('OptionType::Put => fine(written.strike)', 'OptionType::Call => fine(written.strike)')),
    ('MM of a plain spread', 'MM in the maximum without barriers',
     spread('Some(max(0, difference))', 'Some(max(series.minimum_margin(), difference))')),
    ('treating L = ODw as unreachable', 'a written down barrier met exactly taken as out of reach',
     spread(OD_REACHED, OD_REACHED.replace('<=', '<'))),
    ('treating H = OUw as unreachable', 'a written up barrier met exactly taken as out of reach',
     spread(OU_REACHED, OU_REACHED.replace('>=', '>'))),
    ('H not replaced', 'D of a call with H where OUw is reachable', spread(D_HIGHEST, 'let highest = series.high();')),
    ('L not replaced', 'D of a put with L where ODw is reachable', spread(D_LOWEST, 'let lowest = series.low();')),
    ('D not limited', 'D taken as the difference of the strikes',
     spread('min(pe_held, highest) - pe_written', 'pe_held - pe_written')
     + spread('pe_written - max(pe_held, lowest)', 'pe_written - pe_held')),
    ('MM of a knock-out spread', 'MM left out of the maximum',
     spread('max(mm, max(r, d))', 'max(0, max(r, d))') + spread('max(mm, d)', 'max(0, d)')),
    ('R always', 'R counted where the written barrier cannot be reached',
     spread('return if reachable { r } else { 0 };', 'return r;') + spread('max(mm, d)', 'max(mm, max(r, d))')),
    ('subtracting the held rebate when barriers differ', 'R as REBw - REBh whatever the barriers',
     spread(REBATE, 'let r = if true {')),
    ('held rebate left out', 'the held rebate never subtracted', spread(REBATE, 'let r = if false {')),
    ('R below zero', 'the held rebate subtracted whole', spread(HELD_REBATE, HELD_REBATE[len('max(0, '):-1])),
    ('equal strikes', 'equal strikes treated like a held row that pays less',
     spread('pe_held <= pe_written', 'pe_held < pe_written') + spread('pe_held >= pe_written', 'pe_held > pe_written')),
    ('M and Q left out', 'a knock-out spread not multiplied by M and quantity', pairing(AMOUNT, AMOUNT_OF_ONE)),
]
TABLE = WHO_MAY_PAIR + SPREAD_MARGIN
