"""The unit spread margin of a held and a written row, worked out by hand from document 01, Pairs, with document 02 [3]:

"A limiter no longer bars a pair when the held row has none, or when both have one and the held one is not nearer: PBh ≥
PBw for calls, PBh ≤ PBw for puts. The spread formulas are those in force. A held limiter against an unlimited written
row still bars it."

and [5]: "A row with flag 16 .. is never paired".
"""
from .terms import after_flag_1, fine, shown
from .unit import Working, largest

OUT_KINDS = ('down-and-out', 'up-and-out')


def terms(row):
    """What document 01 compares: PE, limiter, barrier (kind and price) and REB."""
    return row.PE, row.PB, row.kind, row.barrier, row.REB


def plain_spread(written, held):
    """Neither row has a barrier: value and arithmetic."""
    if written.series.type == 'call':
        first, second, names = held.PE, written.PE, 'PEh − PEw'
    else:
        first, second, names = written.PE, held.PE, 'PEw − PEh'
    value = max(0, first - second)
    return fine(value), f'max(0; {names}) = max(0; {first} − {second}) = {value}'


def rebate_part(written, held, lines):
    """R, in fine units: the rebate that the spread's writer may have to pay."""
    if held.barrier != written.barrier:
        lines.append(f'barriers differ: R = REBw = {written.REB}')
        return fine(written.REB)
    rebate = max(0, written.REB - held.REB)
    lines.append(f'barriers equal: R = max(0; REBw − REBh) = max(0; {written.REB} − {held.REB}) = {rebate}')
    return fine(rebate)


def written_reached(written, lines):
    """Whether the written barrier is reachable."""
    series, price = written.series, fine(written.barrier)
    if written.kind == 'down-and-out':
        reached = series.L <= price
        test = f'L = {shown(series.L)} {"≤" if reached else ">"} ODw = {written.barrier}'
    else:
        reached = series.H >= price
        test = f'H = {shown(series.H)} {"≥" if reached else "<"} OUw = {written.barrier}'
    lines.append(f'{test}: {"reachable" if reached else "not reachable"}')
    return reached


def strike_part(written, held, reached):
    """D, in fine units, below zero too: what the strikes leave open at the stressed price. And its arithmetic."""
    series, price = written.series, fine(written.barrier)
    if series.type == 'call':
        at, high = ('OUw', price) if reached and written.kind == 'up-and-out' else ('H', series.H)
        value = min(fine(held.PE), high) - fine(written.PE)
        return value, f'D = min(PEh; {at}) − PEw = min({held.PE}; {shown(high)}) − {written.PE} = {shown(value)}'
    at, low = ('ODw', price) if reached and written.kind == 'down-and-out' else ('L', series.L)
    value = fine(written.PE) - max(fine(held.PE), low)
    return value, f'D = PEw − max(PEh; {at}) = {written.PE} − max({held.PE}; {shown(low)}) = {shown(value)}'


def strikes_cover(written, held, lines):
    """Whether the held strike covers the written one."""
    if written.series.type == 'call':
        covered, sign = held.PE <= written.PE, '≤>'
    else:
        covered, sign = held.PE >= written.PE, '≥<'
    lines.append(f'PEh = {held.PE} {sign[0 if covered else 1]} PEw = {written.PE}')
    return covered


def out_spread(written, held, tests):
    """Both rows are down-and-out or both are up-and-out, their barriers in the order that document 01 asks for."""
    parts, lines = {}, []
    reached = written_reached(written, tests)
    if reached:
        parts['R'] = rebate_part(written, held, lines)
    if strikes_cover(written, held, tests):
        value = parts.get('R', 0)
        return Working(value, tests, lines, f'R = {shown(value)}' if reached else '0')
    parts['D'], line = strike_part(written, held, reached)
    value, result = largest({'MM': written.series.MM, **parts})
    return Working(value, tests, lines + [line], result)


def barriers_in_order(written, held, lines):
    """Whether two knock-outs of one kind may pair."""
    if written.kind == 'down-and-out':
        allowed, signs, name = held.barrier <= written.barrier, '≤>', 'OD'
    else:
        allowed, signs, name = held.barrier >= written.barrier, '≥<', 'OU'
    lines.append(f'{name}h = {held.barrier} {signs[0 if allowed else 1]} {name}w = {written.barrier}')
    return allowed


def limiters_in_order(written, held, lines):
    """Whether the held row has no limiter, or both have one and the held one is not nearer. A put's 0 is a limiter."""
    if held.PB is None:
        lines.extend([] if written.PB is None else ['a limiter on the written row alone'])
        return True
    if written.PB is None:
        lines.append('a limiter on the held row alone')
        return False
    if written.series.type == 'call':
        allowed, signs = held.PB >= written.PB, '≥<'
    else:
        allowed, signs = held.PB <= written.PB, '≤>'
    lines.append(f'PBh = {held.PB} {signs[0 if allowed else 1]} PBw = {written.PB}')
    return allowed


def unit_spread(written, held):
    """The unit spread margin of two rows, its value None where they are barred."""
    out = [row.number for row in (written, held) if row.knocked_out]
    if out:
        return Working(None, [f'row {number} already knocked out' for number in out], [], 'barred')
    tests = [f'row {row.number} already knocked in: no barrier, REB = 0' for row in (written, held) if row.knocked_in]
    written, held = after_flag_1(written), after_flag_1(held)
    if terms(written) == terms(held):
        return Working(0, tests + ['same PE, limiter, barrier and REB'], [], '0')
    if not limiters_in_order(written, held, tests):
        return Working(None, tests, [], 'barred')
    if written.kind is None and held.kind is None:
        value, result = plain_spread(written, held)
        return Working(value, tests + ['no barriers'], [], result)
    if written.kind == held.kind and written.kind in OUT_KINDS:
        if barriers_in_order(written, held, tests):
            return out_spread(written, held, tests)
        return Working(None, tests, [], 'barred')
    return Working(None, tests + ['not the same, no rule for these barriers'], [], 'barred')
