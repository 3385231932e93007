"""Misreadings of limiters inside a spread; the form of a table is told in misreadings.py."""
ACCOUNT, SPREAD = 'account.rs', 'spread.rs'
BAR = 'if limiters_bar(series.option_type, held.limiter, written.limiter) {'
ANY_LIMITER = 'held.limiter != Limiter::Absent || written.limiter != Limiter::Absent'
NO_HELD_LIMITER = '(Limiter::Absent, _) => false,'
HELD_LIMITER_ALONE = '(Limiter::At(_), Limiter::Absent) => true,'
CALL_ORDER, PUT_ORDER = 'OptionType::Call => pb_held < pb_written,', 'OptionType::Put => pb_held > pb_written,'
NOTHING_ELSE = '        // Nothing else pairs.\n'
SAME_BUT_LIMITERS = '''        (of_held, of_written)
            if of_held == of_written
                && held.strike == written.strike
                && held.rebate == written.rebate =>
        {
            Some(0)
        }
'''
LIMITED_KNOCK_INS = '''        (of_held, of_written) if of_held == of_written && held.limiter != Limiter::Absent => {
            let difference = fine(held.strike) - fine(written.strike);
            Some(max(0, if series.option_type == OptionType::Call { difference } else { -difference }))
        }
'''
PLAIN_CALL = 'OptionType::Call => fine(held.strike) - fine(written.strike),'
PLAIN_PUT = 'OptionType::Put => fine(written.strike) - fine(held.strike),'
OF_WRITTEN = '''match written.limiter {
        Limiter::At(price) => %s(fine(%s), fine(price)),
        Limiter::Absent => fine(%s),
    }'''
D_CALL, D_PUT = 'min(pe_held, highest) - pe_written', 'pe_written - max(pe_held, lowest)'
KNOCKED_IN = 'Terms { barrier: Barrier::None, rebate: 0, ..of_row }'


def spread(*changes):
    return [(SPREAD, old, new) for old, new in changes]


def at_most_written_limiter(text, least_or_most):
    """The held strike in the text no farther than PBw."""
    within = OF_WRITTEN % (least_or_most, 'held.strike', 'held.strike')
    name = 'pe_held' if 'pe_held' in text else 'fine(held.strike)'
    return text.replace(name, f'({within})')


BARRED = [
    ('limiters bar', 'a limiter on either row bars, as before request 3', spread((BAR, f'if {ANY_LIMITER} {{'))),
    ('limiters do not bar', 'rows with a limiter pair like others', spread((BAR, 'if false {'))),
    ('limiters of knock-outs bar', 'a limiter on either row bars where the rows have barriers',
     spread((BAR, f'{BAR[:-2]}\n    || written.barrier != Barrier::None && ({ANY_LIMITER}) {{'))),
    ('held limiter alone', 'a held limiter against an unlimited written row let through',
     spread((HELD_LIMITER_ALONE, HELD_LIMITER_ALONE.replace('true', 'false')))),
    ('held limiter at 0 alone', "a held put's limiter at 0 against an unlimited written row let through",
     spread((HELD_LIMITER_ALONE, '(Limiter::At(pb_held), Limiter::Absent) => pb_held > 0,'))),
    ('written limiter alone', 'an unlimited held row against a written limiter barred',
     spread((NO_HELD_LIMITER, '(Limiter::Absent, _) => written != Limiter::Absent,'))),
    ('limiters turned round', 'PBh <= PBw for calls, PBh >= PBw for puts',
     spread((CALL_ORDER, CALL_ORDER.replace('<', '>')), (PUT_ORDER, PUT_ORDER.replace(' > ', ' < ')))),
    ('limiters of calls turned round', 'PBh <= PBw for calls and for puts',
     spread((CALL_ORDER, CALL_ORDER.replace('<', '>')))),
    ('limiters of puts turned round', 'PBh >= PBw for calls and for puts',
     spread((PUT_ORDER, PUT_ORDER.replace(' > ', ' < ')))),
    ('equal limiters bar', 'PBh = PBw bars rows that are not the same',
     spread((CALL_ORDER, CALL_ORDER.replace('<', '<=')), (PUT_ORDER, PUT_ORDER.replace(' > ', ' >= ')))),
]
NOT_BARRED = [
    ('other limiters of knock-ins', 'knock-ins pair where they are the same but for limiters that do not bar',
     spread((NOTHING_ELSE, SAME_BUT_LIMITERS + NOTHING_ELSE))),
    ('limited knock-ins', 'knock-ins with limiters that do not bar pair by their strikes',
     spread((NOTHING_ELSE, LIMITED_KNOCK_INS + NOTHING_ELSE))),
    ('PBw limits the spread', 'the held strike no farther than PBw, without barriers',
     spread((PLAIN_CALL, at_most_written_limiter(PLAIN_CALL, 'min')),
            (PLAIN_PUT, at_most_written_limiter(PLAIN_PUT, 'max')))),
    ('PBw limits D', 'the held strike no farther than PBw, in D',
     spread((D_CALL, at_most_written_limiter(D_CALL, 'min')), (D_PUT, at_most_written_limiter(D_PUT, 'max')))),
    ('flag 1 takes the limiter', 'a row already knocked in without its limiter too',
     [(ACCOUNT, KNOCKED_IN, KNOCKED_IN.replace('{ barrier', '{ limiter: Limiter::Absent, barrier'))]),
]
TABLE = BARRED + NOT_BARRED
