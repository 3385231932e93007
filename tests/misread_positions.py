"""Misreadings of the unit margin and the amount; the form of a table is told in misreadings.py."""
ACCOUNT, POSITION = 'account.rs', 'position.rs'
CALL_IN_UP = 'Barrier::UpAndIn(iu) if h < fine(iu) => max(mm, reb),\n        Barrier::UpAndIn(_)'
PUT_IN_UP = 'Barrier::UpAndIn(iu) if h < fine(iu) => max(mm, reb),\n        // The barrier'
CALL_IN_DOWN = 'Barrier::DownAndIn(id) if l > fine(id) => max(mm, reb),\n        // The barrier'
PUT_IN_DOWN = 'Barrier::DownAndIn(id) if l > fine(id) => max(mm, reb),\n        Barrier::DownAndIn(_)'
CALL_OUT_DOWN = 'Barrier::DownAndOut(od) if l > fine(od) => max(mm, payoff(h)),'
CALL_OUT_UP = 'Barrier::UpAndOut(ou) if h < fine(ou) => max(mm, payoff(h)),'
PUT_OUT_DOWN = 'Barrier::DownAndOut(od) if l > fine(od) => max(mm, payoff(l)),'
PUT_OUT_UP = 'Barrier::UpAndOut(ou) if h < fine(ou) => max(mm, payoff(l)),'
OUT = [CALL_OUT_DOWN, CALL_OUT_UP, PUT_OUT_DOWN, PUT_OUT_UP]
EXACT = '    unit * m * quantity\n'
NO_REMAINDER = 'if whole * one_real == exact {'
UP_TO = '''    let up_to = |number: i128, step: i64| {
        let step = i128::from(step);
        (number + step - 1) / step * step
    };
'''
KNOCKED_IN = 'barrier: Barrier::None, rebate: 0, ..of_row }'


def each(texts, old, new):
    """The same change within each of these texts."""
    return [(POSITION, text, text.replace(old, new)) for text in texts]


TABLE = [
    ('adding REB to an unreachable knock-out', 'REB in the maximum where a knock-out cannot be reached',
     each(OUT, 'max(mm, ', 'max3(mm, reb, ')),
    ('summing REB and an unreachable knock-out', 'REB added to the payoff where a knock-out cannot be reached',
     each(OUT, 'max(mm, ', 'max(mm, reb + ')),
    ('using the old H after a down-and-in', 'H kept where a down-and-in call is knocked in', [
        (POSITION, 'Barrier::DownAndIn(id) => max3(mm, reb, payoff(id * series.fa))',
         'Barrier::DownAndIn(_) => max3(mm, reb, payoff(h))')]),
    ('using the old L after an up-and-in', 'L kept where an up-and-in put is knocked in', [
        (POSITION, 'Barrier::UpAndIn(iu) => max3(mm, reb, payoff(iu * series.fb))',
         'Barrier::UpAndIn(_) => max3(mm, reb, payoff(l))')]),
    ('new L after a down-and-in', 'L of a down-and-in put taken from ID', [
        (POSITION, 'Barrier::DownAndIn(_) => max3(mm, reb, payoff(l))',
         'Barrier::DownAndIn(id) => max3(mm, reb, payoff(id * series.fb))')]),
    ('treating H = IU as unreachable', 'an up-and-in met exactly taken as out of reach',
     each([CALL_IN_UP, PUT_IN_UP], 'h < fine', 'h <= fine')),
    ('treating L = ID as unreachable', 'a down-and-in met exactly taken as out of reach',
     each([CALL_IN_DOWN, PUT_IN_DOWN], 'l > fine', 'l >= fine')),
    ('treating H = OU as unreachable', 'an up-and-out met exactly taken as out of reach',
     each([CALL_OUT_UP, PUT_OUT_UP], 'h < fine', 'h <= fine')),
    ('treating L = OD as unreachable', 'a down-and-out met exactly taken as out of reach',
     each([CALL_OUT_DOWN, PUT_OUT_DOWN], 'l > fine', 'l >= fine')),
    ('OU does not limit', 'the payoff of an up-and-out call not limited by OU', [
        (POSITION, 'Barrier::UpAndOut(ou) => max3(mm, reb, min(pb, fine(ou)) - pe)',
         'Barrier::UpAndOut(_) => max3(mm, reb, payoff(h))')]),
    ('OD does not limit', 'the payoff of a down-and-out put not limited by OD', [
        (POSITION, 'Barrier::DownAndOut(od) => max3(mm, reb, pe - max(pb, fine(od)))',
         'Barrier::DownAndOut(_) => max3(mm, reb, payoff(l))')]),
    ('no MM of an unreachable knock-in', 'MM left out where a knock-in cannot be reached',
     each([CALL_IN_UP, PUT_IN_UP, CALL_IN_DOWN, PUT_IN_DOWN], 'max(mm, reb)', 'reb')),
    ('flag 1 keeps REB', 'REB kept where flag 1 is set', [
        (ACCOUNT, KNOCKED_IN, KNOCKED_IN.replace('rebate: 0', 'rebate: self.rebate'))]),
    ('flag 1 not applied', 'barrier and REB kept where flag 1 is set', [
        (ACCOUNT, 'if self.already_knocked_in {', 'if false {')]),
    ('rounded down', 'the amount rounded down to a real', [(POSITION, 'whole + 1', 'whole')]),
    ('rounded to the nearest', 'the amount rounded to the nearest real', [
        (POSITION, NO_REMAINDER, 'if exact - whole * one_real < one_real / 2 {')]),
    ('rounded up always', 'a multiple of 100 above 0 raised too', [(POSITION, NO_REMAINDER, 'if exact == 0 {')]),
    ('rounding each contract', 'the amount of one contract rounded to a real, then multiplied', [
        (POSITION, EXACT, UP_TO + 'up_to(unit * m, REAL * MILLION) * quantity\n')]),
    ('rounding each contract to a centavo', 'the amount of one contract rounded to a centavo, the line to a real', [
        (POSITION, EXACT, UP_TO + 'up_to(unit * m, MILLION) * quantity\n')]),
    ('rounding each tick', 'the unit margin rounded to ticks, then multiplied', [
        (POSITION, EXACT, UP_TO + 'up_to(unit, MILLION) * m * quantity\n')]),
]
